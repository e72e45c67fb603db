puts 1 + 2
puts 40 + 2

puts 999999999 + 999999999
puts 0
