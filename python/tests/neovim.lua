-- Drives the language server by neovim, by hand: a request of each kind, and what keys and requests take: milliseconds by
-- the clock, and of the server's processor time.
--
--     cd FOLDER; PYTHONPATH=.../python nvim -n --headless -u NONE -i NONE -c 'luafile .../python/tests/neovim.lua'
--
-- FOLDER is an empty one: three texts are written there. It is for neovim 0.7, as Debian 12 has it, and later ones.
local PAGE = [[
// A page.
[Exposed=Window]
interface Page : Base {
  // how wide
  readonly attribute long width;
  undefined f(Page other, optional Store s = {});
};
partial interface Page { attribute Store store; };
dictionary Store { required DOMString name; };
Page includes M;
interface mixin M { const long X = 1 };
]]
local THING = [[
// The interface %d.
[Exposed=Window]
interface Thing%d : Base {
  readonly attribute DOMString name; // of it
  undefined open(optional USVString url = "", Base other);
  attribute sequence<long>? numbers;
  const unsigned short KIND = %d;
};

]]
local KEYS, REPEATED, PATIENCE = 20, 5, 10000

local function now() return vim.loop.hrtime() / 1e6 end
local function say(...) io.stdout:write(table.concat(vim.tbl_map(tostring, { ... }), " ") .. "\n") end

local function write(name, text)
  local file = io.open(name, "w")
  file:write(text)
  file:close()
end

-- Things of so many bytes and a few more.
local function things(size)
  local all, count = {}, 0
  while count < size do
    all[#all + 1] = THING:format(#all, #all, #all)
    count = count + #all[#all]
  end
  return table.concat(all)
end

-- How often errors were told.
local told = 0
local shown = vim.lsp.handlers["textDocument/publishDiagnostics"]
vim.lsp.handlers["textDocument/publishDiagnostics"] = function(...)
  told = told + 1
  return shown(...)
end
-- The processor time of the server, in milliseconds; Linux counts hundredths of a second.
local function spent()
  local file = io.open(("/proc/%d/stat"):format(vim.api.nvim_get_proc_children(vim.fn.getpid())[1]))
  local fields = vim.split(file:read("*a"):gsub("^.*%) ", ""), " ")
  file:close()
  return 10 * (fields[12] + fields[13])
end
local function wait_for_errors(count)
  assert(vim.wait(PATIENCE, function() return told >= count end, 1), "no errors were told")
end

-- The result of a request about the text, and how long it took.
local function ask(method, params)
  local began = now()
  params.textDocument = { uri = vim.uri_from_bufnr(0) }
  local _, answer = next(vim.lsp.buf_request_sync(0, "textDocument/" .. method, params, PATIENCE))
  assert(answer and not answer.error, vim.inspect(answer))
  return answer.result, now() - began
end
local function at(line, column, more)
  return vim.tbl_extend("force", { position = { line = line - 1, character = column - 1 } }, more or {})
end
local function line_of(number) return vim.api.nvim_buf_get_lines(0, number - 1, number, false)[1] end

write("page.webidl", PAGE)
write("small.webidl", things(3000))
write("large.webidl", things(200000))
vim.cmd("edit page.webidl")
local began = now()
local id = vim.lsp.start_client({
  cmd = { "python3", "-m", "weedle", "lsp" }, root_dir = vim.fn.getcwd(), flags = { debounce_text_changes = 0 },
})
vim.lsp.buf_attach_client(0, id)
local client = vim.lsp.get_client_by_id(id)
wait_for_errors(1)
say("errors are told", ("%.0f ms behind the start"):format(now() - began))
for _, it in ipairs(vim.diagnostic.get(0)) do say("error", it.lnum + 1 .. ":" .. it.col + 1, it.message) end
local actions = ask("codeAction", {
  range = { start = { line = 10, character = 0 }, ["end"] = { line = 10, character = 1 } }, context = { diagnostics = {} },
})
vim.lsp.util.apply_workspace_edit(actions[1].edit, client.offset_encoding)
say("action", actions[1].title, "makes", line_of(11))
wait_for_errors(2)
say("errors left", #vim.diagnostic.get(0))
say("hover", (ask("hover", at(6, 16)).contents.value:gsub("\n", "|")))
say("definition in line", ask("definition", at(6, 16))[1].range.start.line + 1)
say("references", #ask("references", at(6, 16, { context = { includeDeclaration = true } })))
vim.lsp.util.apply_workspace_edit(ask("rename", at(6, 16, { newName = "Sheet" })), client.offset_encoding)
say("renamed", line_of(6), line_of(8), line_of(10))
say("outline", #ask("documentSymbol", {}))
say("completions", #ask("completion", at(6, 3)))
vim.lsp.util.apply_text_edits(ask("formatting", { options = { tabSize = 2, insertSpaces = true } }), 0, client.offset_encoding)
say("laid out", vim.api.nvim_buf_line_count(0), "lines")

for _, file in ipairs({ "small.webidl", "large.webidl" }) do
  local before = told
  vim.cmd("edit! " .. file)
  vim.lsp.buf_attach_client(0, id)
  wait_for_errors(before + 1)
  local lines, times, start_of_all = vim.api.nvim_buf_line_count(0), {}, spent()
  for key = 1, KEYS do
    local line = math.floor(lines * key / (KEYS + 2))
    local start = now()
    before = told
    vim.api.nvim_buf_set_lines(0, line, line, false, { "!" })
    wait_for_errors(before + 1)
    times[key] = now() - start
    vim.api.nvim_buf_set_lines(0, line, line + 1, false, {})
    wait_for_errors(before + 2)
  end
  table.sort(times)
  say(file, vim.fn.getfsize(file), "bytes, from a key to its errors:", ("%.1f, at most %.1f; processor %.1f"):format(
    times[KEYS / 2], times[KEYS], (spent() - start_of_all) / KEYS / 2))
  for _, method in ipairs({ "documentSymbol", "foldingRange", "formatting", "semanticTokens/full" }) do
    local first, took = spent(), 0
    for _ = 1, REPEATED do
      local _, again = ask(method, { options = { tabSize = 2, insertSpaces = true } })
      took = took + again
    end
    say("", method, ("%.1f; processor %.1f"):format(took / REPEATED, (spent() - first) / REPEATED))
  end
end
client.stop()
assert(vim.wait(PATIENCE, function() return client.is_stopped() end), "the server doesn't end")
say("ended")
vim.cmd("qa!")
