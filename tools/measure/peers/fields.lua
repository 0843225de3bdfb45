-- The same jobs by hand: records in a table, 32-bit sums, a WIDTH that is looked at, and each statement counted against the budget of a job.
local store = { total = 0, rows = {} }
for p = 0, 63 do store.rows[p] = { a = 0, b = 0 } end
for job = 1, 20 do
  local count = 1
  local rows = store.rows
  for i = 1, 190000 do
    count = count + 1; if count > 1000000 then error("BUDGET") end
    count = count + 1; if count > 1000000 then error("BUDGET") end
    local p = i % 64
    count = count + 1; if count > 1000000 then error("BUDGET") end
    local row = rows[p]
    row.a = (row.a + i) & 0xffffffff
    count = count + 1; if count > 1000000 then error("BUDGET") end
    if row.a > 1000 and row.b < 500 then
      count = count + 1; if count > 1000000 then error("BUDGET") end
      local b = row.b + 1
      if b > 0xffff then error("RANGE") end
      row.b = b
    else
      count = count + 1; if count > 1000000 then error("BUDGET") end
      store.total = (store.total + row.b) & 0xffffffff
    end
  end
end
local lines = { "JOBS 20", ("VAR TABLE.TOTAL %d"):format(store.total) }
for p = 0, 63 do
  lines[#lines + 1] = ("REC TABLE.ROWS(%d).A %d"):format(p, store.rows[p].a)
  lines[#lines + 1] = ("REC TABLE.ROWS(%d).B %d"):format(p, store.rows[p].b)
end
lines[#lines + 1] = "END DONE"
print(table.concat(lines, "\n"))
