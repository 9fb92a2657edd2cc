-- Closures, coroutines, strings, errors and numbers that aren't whole.
local function path(number)
  return coroutine.wrap(function()
    local seen = {}
    while not seen[number] do
      seen[number] = true
      coroutine.yield(number)
      number = number % 2 == 0 and number // 2 or 3 * number + 1
    end
  end)
end

local words, count = {}, 0
for step in path(27) do
  count = count + 1
  words[count] = string.format("%03d-%x", step % 97, step)
end
table.sort(words)
print(count, words[1], words[count], #table.concat(words, ","))
print(("shared memory"):gsub("%w+", string.upper))
print(pcall(error, { code = 7 }) and "passed" or "caught", select(2, pcall(error, "an error", 0)))
print(string.format("%.14g %.3f %g", 1 / 3, math.sqrt(2), 2 ^ 0.5), 7 // 2, 1 << 40, math.maxinteger)
