-- The loop of `expressions` in src/workloads.rs. Lua's // and % round down, as our quotient and remainder do.
-- Prints the least seconds of 60 rounds, then the variables.
local from, least = tonumber(arg[1]), math.huge
local v0, v1, v2
for _ = 1, 60 do
  v0, v1, v2 = from, 0, 0
  local start = os.clock()
  while 0 < v0 do
    local choice
    if v0 % 3 == 0 then choice = v1 + v0 // 7 else choice = v1 * 3 + v0 % 5 end
    v1 = choice % 10007
    if v1 <= v2 then choice = v2 // 2 + v0 % 11 else choice = v2 + v1 // 3 end
    v2 = choice % 1009
    v0 = v0 - 1
  end
  least = math.min(least, os.clock() - start)
end
print(string.format("%.9f %d %d %d", least, v0, v1, v2))
