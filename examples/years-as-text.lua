-- Keeps each class of record as long as the town's schedule says, which has its years as text.
--
-- The schedule was put together from four offices: the treasury writes "7", the building office " 12 ", the registry's old system counts in
-- hexadecimal, "0x0A", and the youth office keeps applications two and a half years, "2.5". Arithmetic reads such text as a figure; a
-- comparison and a `for` don't, so years become days before they are compared.
--
-- The archive closes four chunks at the end of each year, one for each office: chunk 4 * n + c holds class c of the year 2010 + n.
--
-- Returns the chunks to release, bit i for chunk i; how many are of each class; and the longest term, as the schedule has it.

local today = 20407          -- 15 November 2025; days are counted from 1 January 1970
local first = 14974          -- 31 December 2010
local chunks = 60            -- those closed so far, the last on 31 December 2024

-- The years that a class is kept.
local function term(class)
  if class == 0 then return "7" end
  if class == 1 then return " 12 " end
  if class == 2 then return "0x0A" end
  return "2.5"
end

-- The days of a term, with a leap day in every fourth year.
local function days(years)
  return years * 365.25
end

local release, taxes, permits, registers, applications = 0, 0, 0, 0, 0
local longest = term(0)
for chunk = 0, chunks - 1 do
  local class = chunk % 4
  local years = term(class)
  if days(years) > days(longest) then longest = years end
  if today - first - chunk // 4 * 365.25 > days(years) then
    release = release | 1 << chunk
    if class == 0 then
      taxes = taxes + 1
    elseif class == 1 then
      permits = permits + 1
    elseif class == 2 then
      registers = registers + 1
    else
      applications = applications + 1
    end
  end
end
return release, taxes, permits, registers, applications, longest
