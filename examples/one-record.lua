-- Decides about one record: it is kept for seven years after the end of the year in which it was closed, and longer while a hold is set on it.
--
-- It is told today's date and the day on which the record was closed, both as days from 1 January 1970, and whether a hold is set.
--
-- Returns the verdict; the record's age in days; and the last day on which it must be kept, hold or no hold.

local today, closed, hold = ...

local years = 7

-- Years are first counted from 1 March, so that a leap day is the last of its year: the days from 1 March of the year 0 to 1 January 1970.
local march = 719468

-- The day on which a year begins.
local function new_year(year)
  local before = year - 1
  return 365 * before + before // 4 - before // 100 + before // 400 + 306 - march
end

-- The year of a day.
local function year_of(day)
  local from_march = day + march
  local in_era = from_march % 146097
  local year = (in_era - in_era // 1460 + in_era // 36524 - in_era // 146096) // 365 + from_march // 146097 * 400
  if day >= new_year(year + 1) then return year + 1 end
  return year
end

-- The last day of the last year for which a record must be kept.
local function last_day(closed)
  return new_year(year_of(closed) + years + 1) - 1
end

local last = last_day(closed)
if today > last and not hold then return "release", today - closed, last end
return "keep", today - closed, last
