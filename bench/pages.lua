-- The pages in Lua, names as globals. `lua pages.lua PAGE ROUNDS`: milliseconds of a run, the best of so
-- many times five, and the number that the page leaves.
local pages = {}

local function list()
  a = {}
  for k = 0, 23 do a[k] = k + 1.0 end
end

function pages.heavy()
  a = {}
  for k = 0, 23 do a[k] = 0.0 end
  for i1 = 0, 23 do
    i = i1 v = a[i1]
    for i2 = 0, 23 do
      i = i2 v = a[i2]
      for i3 = 0, 23 do i = i3 v = a[i3] z = nil end
    end
  end
  return v
end

function pages.page()
  a = {} out = {}
  for k = 0, 23 do a[k] = k + 1.0 out[k] = k + 1.0 end
  s = 0.0 n = 0.0
  for i1 = 0, 23 do
    i = i1 v = a[i1]
    for j1 = 0, 23 do
      j = j1 w = a[j1]
      s = s + v * w
      if math.fmod(s, 3.0) == 0.0 then n = n + 1.0
      elseif s > 1000.0 then s = s - 1000.0
      else n = n end
      out[j1] = s / 2.0
    end
  end
  return s
end

-- parameters are taken from the stack, so the first gets the last value
function g(last, first)
  x = first y = last
  return x * y + x
end

function f(last, first)
  p = first q = last
  h = g(q, p)
  return h / 2.0 + q
end

function pages.calls()
  list()
  s = 0.0
  for i1 = 0, 23 do
    i = i1 v = a[i1]
    for j1 = 0, 23 do
      j = j1 w = a[j1]
      u = f(v, w)
      s = s + u
    end
  end
  return s
end

-- a table is never changed after it is built here, and so a second reference is as good as a copy
function pages.tables()
  list()
  s = 0.0
  for i1 = 0, 23 do
    i = i1 v = a[i1]
    for j1 = 0, 23 do
      j = j1 w = a[j1]
      t = { b = v, c = w, d = v + w, e = 1.0, f = i, g = j, h = s, k = "z" }
      u = t
      s = s + w
    end
  end
  return s
end

-- from 1 on, as Lua copies lists fastest
function pages.copies()
  a = {}
  for k = 1, 24 do a[k] = k + 0.0 end
  s = 0.0
  for i1 = 0, 23 do
    i = i1 v = a[i1 + 1]
    for j1 = 0, 23 do
      j = j1 w = a[j1 + 1]
      b = { table.unpack(a) }
      b[j1 + 1] = v
      c = { table.unpack(b) }
      s = s + w
    end
  end
  return s
end

function pages.branches()
  list()
  s = 0.0
  for i1 = 0, 23 do
    i = i1 v = a[i1]
    for j1 = 0, 23 do
      j = j1 w = a[j1]
      if v > w and v < 7.0 then s = s + 1.0
      elseif w < 4.0 or v == w then s = s + 2.0
      elseif not (v < 20.0) then s = s + 3.0
      elseif w - v > 9.0 then s = s + 4.0
      else s = s + 0.5 end
      if s > 500.0 then s = 0.0 end
    end
  end
  return s
end

local work, least = pages[arg[1]], math.huge
for _ = 1, tonumber(arg[2]) do
  local start = os.clock()
  for _ = 1, 5 do work() end
  least = math.min(least, (os.clock() - start) / 5)
end
print(string.format("%.6f %.17g", least * 1e3, work()))
