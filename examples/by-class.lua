-- Keeps each class of record for its own period, and none that was read in the last two years.
--
-- The archive closes four chunks at the end of each year, one for each class: minutes of the council, building permits, invoices, letters. So
-- chunk 4 * n + c holds class c of the year 2009 + n. An audit on 11 March 2024 read what is of 2015 to 2018, chunks 24 to 39; the others were
-- last read on the day they were closed.
--
-- Returns the chunks to release, bit i for chunk i; how many permits, invoices and letters they are; how many chunks only the audit keeps; and
-- a verdict in words.

local today = 20407          -- 15 November 2025; days are counted from 1 January 1970
local first = 14609          -- 31 December 2009
local audit = 19793          -- 11 March 2024
local chunks = 64            -- those closed so far, the last on 31 December 2024

-- The years that a class is kept; nil is for ever.
local function years(class)
  if class == 0 then return nil end
  if class == 1 then return 12 end
  if class == 2 then return 7 end
  return 3
end

-- The days of some years, with a leap day in every fourth.
local function days(years)
  return years * 1461 // 4
end

local release, permits, invoices, letters, spared = 0, 0, 0, 0, 0
for chunk = 0, chunks - 1 do
  local class = chunk % 4
  local closed = first + days(chunk // 4)
  local read = closed
  if chunk >= 24 and chunk < 40 then read = audit end
  local period = years(class)
  if period and today - closed > days(period) then
    if today - read < days(2) then
      spared = spared + 1
    else
      release = release | 1 << chunk
      if class == 1 then
        permits = permits + 1
      elseif class == 2 then
        invoices = invoices + 1
      else
        letters = letters + 1
      end
    end
  end
end
local verdict = release == 0 and "nothing to release" or "release"
return release, permits, invoices, letters, spared, verdict
