#!/bin/sh
# Opens an example in Neovim without a screen, breaks it, waits for the diagnosis, mends it, and waits until it is gone.
# Wants Neovim (0.7 or later) and the program `outline`, whose path may be given.
set -eu
folder=$(cd "$(dirname "$0")/.." && pwd)
tool=${1:-$folder/target/rust/release/outline}
work=$(mktemp -d)
trap 'rm -rf "$work"' EXIT
cp "$folder/examples/message-passing.outline" "$work/m.outline"
cat > "$work/check.lua" <<LUA
local function fail(text) io.stdout:write("FAILED: " .. text .. "\n") vim.cmd("cquit 1") end
local function told() return vim.diagnostic.get(0) end
local function wait_for(what, is_so)
  if not vim.wait(20000, is_so, 20) then fail(what .. ": " .. vim.inspect(told())) end
  io.stdout:write("ok: " .. what .. "\n")
end
local published = 0
local usual = vim.lsp.handlers["textDocument/publishDiagnostics"]
vim.lsp.handlers["textDocument/publishDiagnostics"] = function(...) published = published + 1 return usual(...) end
vim.cmd("syntax on")
vim.cmd("edit $work/m.outline")
if vim.bo.filetype ~= "outline" then fail("the file type is " .. vim.bo.filetype) end
local group = vim.fn.synIDattr(vim.fn.synID(vim.fn.search("^thread writer"), 1, 1), "name")
if group ~= "outlineDeclaration" then fail("thread is coloured as " .. group) end
local server = { name = "outline", cmd = { "$tool", "lsp" }, root_dir = "$work" }
-- Neovim 0.7 has no \`vim.lsp.start\` and no \`vim.lsp.buf.format\`.
if vim.lsp.start then vim.lsp.start(server) else vim.lsp.buf_attach_client(0, vim.lsp.start_client(server)) end
wait_for("the example has no diagnosis", function() return published > 0 and #told() == 0 end)
local line = vim.fn.search("flag :=rel 1")
vim.api.nvim_buf_set_lines(0, line - 1, line, true, { "    flag := 1" })
wait_for("without the release the program is wrong", function()
  local all = told()
  for _, one in ipairs(all) do
    if one.message:find("PROGRAM WRONG: a run of 4 steps", 1, true) then return true end
  end
end)
for _, one in ipairs(told()) do
  io.stdout:write(string.format("  line %d: %s\n", one.lnum + 1, one.message:match("^[^\n]*")))
end
local hover = nil
vim.api.nvim_win_set_cursor(0, { vim.fn.search("{ Coming }"), 4 })
vim.lsp.buf_request(0, "textDocument/hover", vim.lsp.util.make_position_params(0, "utf-16"), function(_, found) hover = found end)
wait_for("hover spells a let out", function()
  return hover and hover.contents.value:find("let Coming = reader sees one flag = 0", 1, true)
end)
vim.api.nvim_buf_set_lines(0, line - 1, line, true, { "flag:=rel   1" })
wait_for("mended, the diagnosis is gone", function() return #told() == 0 end)
if vim.lsp.buf.format then vim.lsp.buf.format({ timeout_ms = 10000 }) else vim.lsp.buf.formatting_sync(nil, 10000) end
wait_for("the layout is back", function() return vim.fn.getline(line) == "    flag :=rel 1" end)
-- Comments, marks, brackets and numbers of all examples have their groups.
local wanted = { ["#"] = "Comment", ["["] = "Bracket", ["("] = "Bracket", ["+"] = "Mark", ["&"] = "Mark", [";"] = "Mark" }
local seen = 0
for _, file in ipairs(vim.fn.glob("$folder/examples/*.outline", false, true)) do
  vim.cmd("silent edit! " .. file)
  for number, content in ipairs(vim.fn.getline(1, "\$")) do
    local code = content:match("^[^#]*")
    for column = 1, math.min(#code + 1, #content) do
      local group = wanted[content:sub(column, column)]
      if group then
        local found = vim.fn.synIDattr(vim.fn.synID(number, column, 1), "name")
        if found ~= "outline" .. group then fail(file .. ":" .. number .. ":" .. column .. ": " .. found) end
        seen = seen + 1
      end
    end
  end
end
io.stdout:write("ok: " .. seen .. " places of all examples have their groups\n")
io.stdout:write("all as wanted\n")
vim.cmd("quitall!")
LUA
nvim --headless --clean --cmd "set runtimepath+=$folder/editors/vim" -S "$work/check.lua" </dev/null
