puts 7
puts 7 + 7
puts 14 + 7
puts 21 + 7

puts 28 + 7
