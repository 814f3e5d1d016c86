-- The loop of `empty_branches` in src/workloads.rs: twelve ifs, each with one empty branch.
-- Prints the least seconds of 60 rounds, then the variables.
local from, least = tonumber(arg[1]), math.huge
local v0, v1, v2, v3, v4, v5, v6, v7, v8, v9, v10, v11, v12
for _ = 1, 60 do
  v0, v1, v2, v3, v4, v5, v6 = from, 0, 0, 0, 0, 0, 0
  v7, v8, v9, v10, v11, v12 = 0, 0, 0, 0, 0, 0
  local start = os.clock()
  while 0 < v0 do
    if v0 % 2 == 0 then else v1 = v1 + 1 end
    if v0 % 3 == 0 then v2 = v2 + 1 end
    if v0 % 4 == 0 then else v3 = v3 + 1 end
    if v0 % 5 == 0 then v4 = v4 + 1 end
    if v0 % 6 == 0 then else v5 = v5 + 1 end
    if v0 % 7 == 0 then v6 = v6 + 1 end
    if v0 % 8 == 0 then else v7 = v7 + 1 end
    if v0 % 9 == 0 then v8 = v8 + 1 end
    if v0 % 10 == 0 then else v9 = v9 + 1 end
    if v0 % 11 == 0 then v10 = v10 + 1 end
    if v0 % 12 == 0 then else v11 = v11 + 1 end
    if v0 % 13 == 0 then v12 = v12 + 1 end
    v0 = v0 - 1
  end
  least = math.min(least, os.clock() - start)
end
local variables = {v0, v1, v2, v3, v4, v5, v6, v7, v8, v9, v10, v11, v12}
print(string.format("%.9f ", least) .. table.concat(variables, " "))
