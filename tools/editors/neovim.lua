-- nvim --headless --clean -u neovim.lua f.yaml: opens the file under the server of $SERVER, edits it, and writes to $OUT what is shown.
local out = io.open(os.getenv("OUT"), "w")
local severities = { "error", "warning", "information", "hint" }
local published = { count = 0 }
local publish = vim.lsp.handlers["textDocument/publishDiagnostics"]
vim.lsp.handlers["textDocument/publishDiagnostics"] = function(fault, result, ...)
  publish(fault, result, ...)
  published = { count = published.count + 1, version = result.version }
end

-- The text that is underlined for a diagnostic.
local function underlined(diagnostic)
  local space = vim.diagnostic.get_namespace(diagnostic.namespace).user_data.underline_ns
  local found = {}
  local place = { diagnostic.lnum, diagnostic.col }
  for _, mark in ipairs(vim.api.nvim_buf_get_extmarks(0, space, place, place, { details = true })) do
    local text = vim.api.nvim_buf_get_text(0, mark[2], mark[3], mark[4].end_row, mark[4].end_col, {})
    found[#found + 1] = "'" .. table.concat(text, "\\n") .. "'"
  end
  table.sort(found)
  return table.concat(found, " ")
end

local function note(step)
  out:write(step, "\n")
  for _, d in ipairs(vim.diagnostic.get(0)) do
    out:write(string.format("  %d:%d-%d:%d %s %s: %s %s\n", d.lnum, d.col, d.end_lnum, d.end_col, severities[d.severity],
      d.user_data.lsp.code, d.message, underlined(d)))
  end
  out:flush()
end

-- Does something, waits until the text as it is then was published, and tells what is shown.
local function step(name, act)
  local before = published.count
  act()
  vim.wait(20000, function()
    local version = vim.lsp.util.buf_versions[vim.api.nvim_get_current_buf()]
    return published.count > before and (not published.version or published.version == version)
  end, 10)
  note(name)
end

vim.schedule(function()
  local client
  step("opened", function()
    local command = vim.split(os.getenv("SERVER"), " ")
    client = vim.lsp.start_client({ name = "zutkrad", cmd = command, root_dir = vim.fn.getcwd(), flags = { debounce_text_changes = 0 } })
    vim.lsp.buf_attach_client(0, client)
  end)
  step("typed", function() vim.api.nvim_buf_set_text(0, 1, 4, 1, 4, { " \u{1F600} é " }) end)
  vim.cmd("let &undolevels = &undolevels") -- what follows is undone by itself
  step("two lines", function() vim.api.nvim_buf_set_lines(0, 1, 3, true, { "x:  yes", '\u{1F600}: "y' }) end)
  step("undone", function() vim.cmd("undo") end)
  step("configured", function()
    local settings = { zutkrad = { config = "rules: {colons: enable, trailing-spaces: enable}", maxProblems = 1 } }
    vim.lsp.get_client_by_id(client).notify("workspace/didChangeConfiguration", { settings = settings })
  end)
  step("closed", function() vim.lsp.buf_detach_client(0, client) end)
  vim.lsp.stop_client(client)
  vim.wait(20000, function() return vim.lsp.client_is_stopped(client) end, 10)
  out:write("stopped ", tostring(vim.lsp.client_is_stopped(client)), "\n")
  out:close()
  vim.cmd("qa!")
end)
