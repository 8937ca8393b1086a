-- Keeps each class of record until its own cut-off date, which a helper remembers.
--
-- A town gives each class of record a period in years. `cutoff` makes a helper for one class: it remembers the date before which that
-- class is released, and how many records it has let go.
--
-- Returns the records to release, bit i for record i; then how many of each class they are: letters, permits, plans.

local today = 20407               -- 15 November 2025; days are counted from 1 January 1970
local records = 40                -- record i was closed on day 13000 + 190 * i; every third one is of the same class

local function cutoff(years)
  local before = today - years * 365.25
  local released = 0
  local function releases(closed)
    if closed < before then
      released = released + 1
      return true
    end
    return false
  end
  local function count() return released end
  return releases, count
end

local letters, lettersReleased = cutoff(5)
local permits, permitsReleased = cutoff(10)
local plans, plansReleased = cutoff(15)

local release = 0
for i = 0, records - 1 do
  local closed = 13000 + 190 * i
  local gone
  if i % 3 == 0 then
    gone = letters(closed)
  elseif i % 3 == 1 then
    gone = permits(closed)
  else
    gone = plans(closed)
  end
  if gone then
    release = release | 1 << i
  end
end
return release, lettersReleased(), permitsReleased(), (plansReleased())
