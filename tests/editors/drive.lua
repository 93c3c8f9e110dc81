-- Tests gqlls in neovim 0.7 or later, on a folder with a schema and a query:
--   GQLLS=PROGRAM nvim -n --headless --clean -c 'luafile tests/editors/drive.lua'
-- It calls what a user's keys call where there is such a call, and sends the request itself where there is none. It prints what differs and one line at the end.
-- The status is 0 when nothing differs.
local tests, failed = 0, 0

vim.o.showmode = false
vim.o.report = 1000
vim.opt.shortmess:append("FWc")

local function expect(what, found, wanted)
  tests = tests + 1
  if not vim.deep_equal(found, wanted) then
    failed = failed + 1
    io.stdout:write("neovim: " .. what .. ": " .. vim.inspect(found) .. ", not " .. vim.inspect(wanted) .. "\n")
  end
end

-- Lets neovim go on until something is true, for ten seconds at most. Tests are coroutines, so that neovim does its work as it does for a user.
local function wait(is_ready)
  local test, left = coroutine.running(), 1000
  local function look()
    left = left - 1
    if left == 0 or is_ready() then
      local ok, why = coroutine.resume(test)
      if not ok then
        io.stdout:write("neovim: " .. tostring(why) .. "\n")
        vim.cmd("cquit 1")
      end
    else
      vim.defer_fn(look, 10)
    end
  end
  vim.defer_fn(look, 10)
  coroutine.yield()
end

-- When errors of a document were published last, and of which version.
local published = {}
local show = vim.lsp.handlers["textDocument/publishDiagnostics"]
vim.lsp.handlers["textDocument/publishDiagnostics"] = function(err, result, ...)
  published[result.uri] = { time = vim.loop.now(), version = result.version }
  return show(err, result, ...)
end

-- Does something, and waits until the errors after it are there: until a tenth of a second has passed since errors were published.
local function after(document, act)
  published[document.uri] = nil
  act()
  wait(function()
    local last = published[document.uri]
    return last and vim.loop.now() - last.time > 100
  end)
end

local function start(config)
  if vim.lsp.start then return vim.lsp.start(config) end
  local client = vim.lsp.start_client(config)
  vim.lsp.buf_attach_client(0, client)
  return client
end

-- Edits a file, with a server of its own.
local function open(name, encoding)
  vim.cmd("edit " .. name)
  vim.bo.filetype = "graphql"
  vim.bo.omnifunc = "v:lua.vim.lsp.omnifunc"
  vim.bo.formatexpr = "v:lua.vim.lsp.formatexpr()"
  local capabilities = vim.lsp.protocol.make_client_capabilities()
  capabilities.general = vim.tbl_extend("force", capabilities.general or {}, { positionEncodings = { encoding } })
  local document = { uri = vim.uri_from_bufnr(0), buffer = vim.api.nvim_get_current_buf() }
  after(document, function()
    document.client = start({
      name = "gqlls " .. name,
      cmd = { vim.env.GQLLS },
      root_dir = vim.fn.getcwd(),
      capabilities = capabilities,
      offset_encoding = encoding,
      flags = { debounce_text_changes = 0, allow_incremental_sync = name ~= "whole.graphql" },
    })
  end)
  return document
end

local function ask(document, method, more)
  local params = vim.tbl_extend("force", { textDocument = { uri = document.uri } }, more or {})
  local answers = vim.lsp.buf_request_sync(document.buffer, "textDocument/" .. method, params, 10000)
  return answers and answers[document.client] and answers[document.client].result
end

local function range(line, from, to)
  return { start = { line = line, character = from }, ["end"] = { line = line, character = to } }
end

local function cursor(line, column)
  vim.api.nvim_win_set_cursor(0, { line, column })
end

local function keys(text)
  vim.api.nvim_feedkeys(vim.api.nvim_replace_termcodes(text, true, false, true), "n", false)
end

local function lines()
  return vim.api.nvim_buf_get_lines(0, 0, -1, true)
end

local function errors(document)
  return vim.tbl_map(function(it) return { it.lnum, it.col, it.message } end, vim.diagnostic.get(document.buffer))
end

local function end_client(document)
  if vim.lsp.config then -- from neovim 0.11 on
    vim.lsp.get_client_by_id(document.client):stop()
  else
    vim.lsp.stop_client(document.client)
  end
  wait(function() return vim.lsp.client_is_stopped(document.client) end)
  expect("the server ends", vim.lsp.client_is_stopped(document.client), true)
end

local function names_of_schema()
  local document = open("schema.graphql", "utf-16")
  expect("no errors in the schema", errors(document), {})
  cursor(4, 16)
  vim.lsp.buf.definition()
  wait(function() return vim.fn.line(".") == 7 end)
  expect("the definition of Pet", vim.api.nvim_win_get_cursor(0), { 7, 5 })
  vim.lsp.buf.references()
  wait(function() return #vim.fn.getqflist() == 3 end)
  -- the first is in query.graphql, which is not open
  expect("the references of Pet", vim.tbl_map(function(it) return { it.lnum, it.col } end, vim.fn.getqflist()), { { 4, 19 }, { 4, 17 }, { 7, 6 } })
  vim.cmd("cclose")
  cursor(4, 3)
  vim.lsp.buf.hover()
  wait(function() return #vim.api.nvim_list_wins() == 2 end)
  local shown = table.concat(vim.api.nvim_buf_get_lines(vim.api.nvim_win_get_buf(vim.api.nvim_list_wins()[2] or 0), 0, -1, true), "\n")
  expect("hover on pet", { shown:find("pet(id: ID!): Pet", 1, true) ~= nil, shown:find("One pet.", 1, true) ~= nil }, { true, true })
  vim.api.nvim_win_close(vim.api.nvim_list_wins()[2], true)
  return document
end

local function parts_of_schema(document)
  local symbols = ask(document, "documentSymbol")
  expect("the symbols", vim.tbl_map(function(it) return it.name end, symbols), { "Query", "Pet" })
  expect("a field's type", symbols[1].children[1].detail, "Pet")
  expect("an argument", symbols[1].children[1].children[1].name, "id")
  local folds = ask(document, "foldingRange")
  expect("the folds", vim.tbl_map(function(it) return { it.startLine, it.endLine } end, folds), { { 1, 3 }, { 6, 7 } })
  local selection = ask(document, "selectionRange", { positions = { { line = 6, character = 6 } } })
  expect("the selection", { selection[1].range, selection[1].parent.range.start.line }, { range(6, 5, 8), 6 })
  local tokens = ask(document, "semanticTokens/range", { range = range(1, 0, 12) }).data
  expect("the tokens of a line", tokens, { 1, 0, 4, 1, 0, 0, 5, 5, 6, 0 })
  expect("all tokens", #ask(document, "semanticTokens/full").data, 16 * 5)
  end_client(document)
end

-- The emoji takes four bytes, two units of UTF-16 and one character.
local function changes(encoding)
  local document = open("query.graphql", encoding)
  expect("no errors in the query", errors(document), {})
  after(document, function() vim.api.nvim_buf_set_text(0, 1, 2, 1, 2, { "😀! " }) end)
  expect("an error after an emoji, in bytes", { errors(document)[1][1], errors(document)[1][2] }, { 1, 2 })
  expect("the first of the next definition", { errors(document)[2][1], errors(document)[2][2] }, { 2, 0 })
  after(document, function() vim.api.nvim_buf_set_text(0, 1, 2, 1, 8, { "" }) end)
  expect("no errors after the change", errors(document), {})
  after(document, function() vim.api.nvim_buf_set_lines(0, 0, 2, true, { "{" }) end)
  after(document, function() vim.cmd("silent undo") end)
  expect("no errors after undo", errors(document), {})
  return document
end

-- Random edits, after which the errors are those of a new server that is given the text as it is then. (A CR within a line is no line's end for neovim.)
local function random_edits(document)
  local pieces = { "😀", "é", "a", "{", "}", '"', '"""', "# x", "type T { a: B }", "query ($a: Int) { b }", "@d", "..." }
  local function place(from)
    local line = math.random(from, vim.fn.line("$"))
    local text = vim.fn.getline(line)
    return line, math.max(vim.fn.byteidx(text, math.random(0, vim.fn.strchars(text))), 0)
  end
  math.randomseed(5)
  for _ = 1, 200 do
    local line, column = place(1)
    local last, to = place(line)
    if last > line + 1 or (last == line and to < column) then last, to = line, column end
    local new = { pieces[math.random(#pieces)] }
    if math.random(3) == 1 then new = { new[1], pieces[math.random(#pieces)] } end
    vim.api.nvim_buf_set_text(0, line - 1, column, last - 1, to, new)
  end
  local version = vim.api.nvim_buf_get_changedtick(0)
  wait(function() return published[document.uri].version == version end)
  local found = errors(document)
  expect("some errors", #found > 0, true)
  end_client(document)
  vim.cmd("silent write")
  local again = open("query.graphql", "utf-16")
  expect("the errors of the text opened anew", found, errors(again))
  return again
end

local function whole_texts()
  local document = open("whole.graphql", "utf-16")
  after(document, function() vim.api.nvim_buf_set_lines(0, 0, -1, true, { "{ a", "😀" }) end)
  expect("errors of the whole text", errors(document)[1][1], 1)
  after(document, function() vim.api.nvim_buf_set_lines(0, 0, -1, true, { "{ a", "}" }) end)
  expect("no errors of the whole text", errors(document), {})
  end_client(document)
end

local function completion(document)
  vim.cmd("setlocal iskeyword+=$,@-@")
  cursor(2, 10)
  after(document, function() keys("3cl$<C-x><C-o>") end)
  wait(function() return vim.fn.getline(2) == "  pet(id: $id) { ...parts }" end)
  expect("the word after $", vim.fn.getline(2), "  pet(id: $id) { ...parts }")
  keys("<Esc>")
  wait(function() return vim.fn.mode() == "n" end)
end

local function layout(document)
  vim.cmd("1,3fold | 3mark a")
  cursor(4, 0)
  after(document, function() keys("gqq") end)
  expect("the layout of a line", lines(), { "query Find($id: ID!) { # 😀", "  pet(id: $id) { ...parts }", "}", "fragment parts on Pet {", "  name", "}" })
  after(document, function()
    if vim.lsp.buf.format then vim.lsp.buf.format({ async = false }) else vim.lsp.buf.formatting_sync(nil, 10000) end
  end)
  expect("the layout", { lines()[1], vim.list_slice(lines(), #lines() - 4, #lines()) },
    { "query Find($id: ID!) { # 😀", { "  }", "}", "fragment parts on Pet {", "  name", "}" } })
  expect("the line of a mark, and the fold that it is in", { lines()[vim.fn.line("'a")], vim.fn.foldlevel("'a") }, { "}", 1 })
end

-- Closing a document takes its errors away, and so does the server.
local function closing(document)
  after(document, function() vim.api.nvim_buf_set_lines(0, 0, 1, true, { "!" }) end)
  expect("an error", #errors(document) > 0, true)
  vim.cmd("silent write")
  after(document, function() vim.cmd("bdelete!") end)
  expect("no errors of a closed document", vim.diagnostic.get(document.buffer), {})
  end_client(document)
end

local function run()
  parts_of_schema(names_of_schema())
  for _, encoding in ipairs({ "utf-8", "utf-16" }) do
    local document = changes(encoding)
    if encoding == "utf-16" then
      completion(document)
      layout(document)
      closing(random_edits(document))
    else
      end_client(document)
      vim.cmd("bdelete!")
    end
  end
  whole_texts()
  io.stdout:write("neovim: " .. tests .. " tests, " .. failed .. " differences\n")
  vim.cmd(failed == 0 and "qall!" or "cquit 1")
end

local test = coroutine.create(run)
vim.defer_fn(function()
  local ok, why = coroutine.resume(test)
  if not ok then
    io.stdout:write("neovim: " .. tostring(why) .. "\n")
    vim.cmd("cquit 1")
  end
end, 0)
