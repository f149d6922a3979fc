-- Direction of a stem. Lines and spaces are counted from the middle line, upward positive.
function stem(note, voice)
  -- A voice that is given decides; else the note's own mark; else its place.
  local mark = voice or note.mark
  local down = note.place > 0 or note.place == 0 and note.rightward
  return mark or down and "down" or "up"
end

-- The note of a chord that is farthest from the middle line decides for all of it.
function chord(voice, ...)
  local far = {place = 0, rightward = true}
  for i = 1, select("#", ...) do
    local note = select(i, ...)
    if math.abs(note.place) > math.abs(far.place) then far = note end
  end
  return stem(far, voice)
end
