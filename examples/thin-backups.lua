-- Thins out backups: every day for a month, every Sunday for a year, then the first of each month.
--
-- There is a backup of every day; chunk i is the one that is i days old. The first of a month is kept in the first year too, or none would be left
-- after it.
--
-- Returns how many of the last 448 days' backups are kept, then the chunks to release: seven values for 64 chunks each, bit i of the first for
-- chunk i, bit i of the second for chunk 64 + i, and so on.

local today = 20407          -- 15 November 2025; days are counted from 1 January 1970

-- 0 is Sunday. Day 0 was a Thursday.
local function weekday(day)
  return (day + 4) % 7
end

-- The day of the month, 1 to 31. Years are counted from 1 March here, so that a leap day is the last of its year.
local function day_of_month(day)
  local in_era = (day + 719468) % 146097
  local year = (in_era - in_era // 1460 + in_era // 36524 - in_era // 146096) // 365
  local in_year = in_era - (365 * year + year // 4 - year // 100)
  local month = (5 * in_year + 2) // 153
  return in_year - (153 * month + 2) // 5 + 1
end

local function kept(day, age)
  if age <= 31 or day_of_month(day) == 1 then return true end
  return age <= 365 and weekday(day) == 0
end

-- Of 64 chunks from one on: those to release, and how many are kept.
local function thinned(from)
  local release, count = 0, 0
  for i = 0, 63 do
    local age = from + i
    if kept(today - age, age) then
      count = count + 1
    else
      release = release | 1 << i
    end
  end
  return release, count
end

local a, in_a = thinned(0)
local b, in_b = thinned(64)
local c, in_c = thinned(128)
local d, in_d = thinned(192)
local e, in_e = thinned(256)
local f, in_f = thinned(320)
local g, in_g = thinned(384)
return in_a + in_b + in_c + in_d + in_e + in_f + in_g, a, b, c, d, e, f, g
