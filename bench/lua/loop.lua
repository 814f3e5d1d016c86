-- while 0 < v0 do (v0 := v0 - 60; v1 := v1 + 1). Prints the least seconds of 60 rounds, then the variables.
local from, least = tonumber(arg[1]), math.huge
local v0, v1
for _ = 1, 60 do
  v0, v1 = from, 0
  local start = os.clock()
  while 0 < v0 do
    v0 = v0 - 60
    v1 = v1 + 1
  end
  least = math.min(least, os.clock() - start)
end
print(string.format("%.9f %d %d", least, v0, v1))
