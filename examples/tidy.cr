# A channel that is asked for sums, as written in a hurry.
def double( x:Int32 ):Int32
  x+x
end

total=0
[1,2,3].each { |i|   total += double i }   # a comment
puts "total: #{total}" if total>0
puts(  -(1) )
