-- Ties of a staff: one from each note that asks for it to the next note of the same pitch.
function ties(staff, ...)
  local wanted = {"tie", "slur", ...}   -- kinds of arcs that are drawn
  local count, open = 0, {}

  -- Draws the arc that ends at `note`, if one is open at its pitch.
  local function finish(note)
    local start = open[note.pitch]
    if not start then return end
    open[note.pitch] = nil
    count = count + 1
    staff:arc(start, note, {height = 1 + count % 2, above = start.up})
  end

  for _, note in ipairs(staff.notes) do
    finish(note)
    for _, kind in ipairs(wanted) do
      if note.arc == kind then open[note.pitch] = note end
    end
  end
  return count
end
