-- Counts the words of a file, writes them to another one and reads them back.
local count, order = {}, {}
for line in io.lines(arg[1]) do
  for word in line:lower():gmatch("%a+") do
    if not count[word] then
      count[word] = 0
      order[#order + 1] = word
    end
    count[word] = count[word] + 1
  end
end
table.sort(order, function(a, b) return count[a] > count[b] or count[a] == count[b] and a < b end)
local out <close> = assert(io.open("made.txt", "w"))
for i = 1, 5 do
  out:write(string.format("%-6s %d\n", order[i], count[order[i]]))
end
out:close()
io.write(io.open("made.txt"):read("a"))
assert(os.remove("made.txt"))
print(io.open("made.txt"))

local squares = coroutine.wrap(function()
  for i = 1, 5 do
    coroutine.yield(i * i)
  end
end)
print(squares(), squares(), squares())
print(7 // 2, 7 % -3, 7 / 2, 2 ^ 0.5, 1 << 40, math.maxinteger)
print(pcall(error, { code = 3 }) == false, select("#", table.unpack({ 1, 2, 3 })))
print(string.format("%5.2f|%q|%x", math.pi, "a\nb", 255), ("x"):rep(3, ","))
