-- Prints what neovim shows of a deck, as JSON: for each line of the screen its pieces, [text, kind]. A kind is the name
-- of a highlight group, `Error` or `Warn` for what the language server says, or `Plain`.
--
-- tools/editor_picture.py calls it in the folder of the deck, with the language server on the path.
vim.o.columns, vim.o.lines, vim.o.cmdheight, vim.o.laststatus = 112, 17, 1, 0
vim.o.signcolumn, vim.o.termguicolors = "yes:1", true
vim.cmd("edit wrong.deck")
vim.wait(60000, function() return #vim.diagnostic.get(0) > 1 end, 50)
vim.cmd("redraw")

local severities = {}
for _, it in ipairs(vim.diagnostic.get(0)) do
  severities[it.lnum + 1] = it.severity == vim.diagnostic.severity.ERROR and "Error" or "Warn"
end

local front = vim.fn.getwininfo(vim.fn.win_getid())[1].textoff

local function kind_at(row, column)
  local text = vim.fn.getline(row)
  if row > vim.fn.line("$") then return "Plain" end
  if column <= front or column > front + #text then return severities[row] or "Plain" end
  local group = vim.fn.synIDattr(vim.fn.synIDtrans(vim.fn.synID(row, column - front, true)), "name")
  return group == "" and "Plain" or group
end

local rows = {}
for row = 1, vim.fn.line("$") do
  local pieces = {}
  for column = 1, vim.o.columns do
    local text, kind = vim.fn.screenstring(row, column), kind_at(row, column)
    local last = pieces[#pieces]
    if last and last[2] == kind then last[1] = last[1] .. text else pieces[#pieces + 1] = { text, kind } end
  end
  rows[#rows + 1] = pieces
end
io.stdout:write(vim.fn.json_encode(rows), "\n")
vim.cmd("qa!")
