-- Times the scripts beside it: lua time.lua FOLDER SECONDS NAME...
-- One line each: name, nanoseconds a run (best round), result. SECONDS is for
-- each script; the rounds go over all scripts in turn, so that a slow spell
-- of the computer hits them alike.
local folder, seconds = arg[1], tonumber(arg[2])
local scripts = {}

local function round(s)
  local from = os.clock()
  for _ = 1, s.times do s.run(1) end
  return os.clock() - from
end

for k = 3, #arg do
  local s = { name = arg[k], run = dofile(folder .. "/" .. arg[k] .. ".lua"), times = 1 }
  s.result, s.best = s.run(1), math.huge
  -- a round is long enough for the coarse clock
  while round(s) < seconds / 40 do s.times = s.times * 2 end
  scripts[#scripts + 1] = s
end

local started = os.clock()
repeat
  for _, s in ipairs(scripts) do
    s.best = math.min(s.best, round(s) / s.times)
  end
until os.clock() - started > seconds * #scripts

for _, s in ipairs(scripts) do
  print(string.format("%s %.1f %d", s.name, s.best * 1e9, s.result))
end
