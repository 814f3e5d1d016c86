-- The loop of `midnight` in src/workloads.rs. Lua's // and % round down, as our quotient and remainder do, also before midnight.
-- Prints the least seconds of 60 rounds, then the variables.
local from, least = tonumber(arg[1]), math.huge
local v0, v1, v2, v3
for _ = 1, 60 do
  v0, v1, v2, v3 = from, 0, 0, 0
  local start = os.clock()
  while 0 < v0 do
    v3 = v0 - 10000
    v1 = v1 + v3 // 60
    v2 = v2 + v3 % -60
    v0 = v0 - 1
  end
  least = math.min(least, os.clock() - start)
end
print(string.format("%.9f %d %d %d %d", least, v0, v1, v2, v3))
