-- What Neovim makes of the set-up of docs/EDITORS.md, over two documents: a line for each step.

local function wait(ready)
  return vim.wait(300000, ready, 20)
end

local function worst()
  local found = vim.diagnostic.get(0)
  table.sort(found, function(one, other) return one.severity < other.severity end)
  return found[1]
end

local first = vim.api.nvim_get_current_buf()
vim.cmd("edit e.tml")
wait(function() return #vim.diagnostic.get(first) > 0 and worst() ~= nil end)
print("types: " .. vim.bo[first].filetype .. " " .. vim.bo.filetype)
print("clients: " .. #vim.lsp.get_active_clients())
local id = vim.lsp.get_active_clients()[1].id
print("attached: " .. tostring(vim.lsp.buf_is_attached(first, id)) .. " " .. tostring(vim.lsp.buf_is_attached(0, id)))
vim.cmd("buffer " .. first)

local function ask(method, more)
  local asked = vim.tbl_extend("force", vim.lsp.util.make_position_params(), more or {})
  return vim.lsp.buf_request_sync(0, method, asked, 300000)[id]
end

local function apply(edit)
  vim.lsp.util.apply_workspace_edit(edit, vim.lsp.get_client_by_id(id).offset_encoding)
end

print("said: " .. worst().message)
local line = { start = { line = 1, character = 0 }, ["end"] = { line = 1, character = 0 } }
local action = ask("textDocument/codeAction", { range = line, context = { diagnostics = {} } }).result[1]
print("offered: " .. action.title)
apply(action.edit)
print("line: " .. vim.fn.getline(2))
wait(function() return worst() ~= nil and worst().severity > vim.diagnostic.severity.ERROR end)
print("then: " .. worst().message)
vim.api.nvim_win_set_cursor(0, { 2, 3 })
print("hover: " .. ask("textDocument/hover").result.contents.value)
vim.api.nvim_win_set_cursor(0, { 2, 12 })
print("refused: " .. ask("textDocument/rename", { newName = "a b" }).error.message)
apply(ask("textDocument/rename", { newName = "e7" }).result)
print("renamed: " .. vim.fn.getline(2))
vim.fn.cursor(2, vim.fn.getline(2):find("word"))
vim.cmd("normal! viw\27")
vim.ui.select = function(items, _, choose)
  for _, item in ipairs(items) do
    if item[2].title:find("MAKEINSTANCE") then choose(item) end
  end
end
vim.lsp.buf.range_code_action()
wait(function() return vim.fn.getline(2):find("OCCURRENCE") ~= nil end)
print("annotated: " .. vim.fn.getline(2))
print("instance: " .. vim.fn.getline(3))
vim.fn.append(vim.fn.line("$"), "<TimeML>second</TimeML>")
local last = vim.fn.line("$")
wait(function() return worst() ~= nil and worst().message:find("second document") ~= nil end)
line = { start = { line = last - 1, character = 0 }, ["end"] = { line = last - 1, character = 0 } }
action = ask("textDocument/codeAction", { range = line, context = { diagnostics = {} } }).result[1]
print("offered: " .. action.title)
apply(action.edit)
print("left: " .. vim.fn.getline("$"))
print("made: " .. vim.fn.getbufline("d.2.tml", 1)[1])
vim.lsp.stop_client(id)
print("stopped: " .. tostring(wait(function() return vim.lsp.client_is_stopped(id) end)))
