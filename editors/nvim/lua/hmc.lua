-- Diagnostics by hmc in Neovim 0.7 and later: copy this file to ~/.config/nvim/lua/hmc.lua, and write `require("hmc").setup()` into init.lua.
--
-- The set of modules is all *.hs of the buffer's folder. The buffer is read from memory, through standard input, so it needn't be saved.
-- `vim.g.hmc_program` names the program if it isn't on the PATH.
local M = {}
local space = vim.api.nvim_create_namespace("hmc")
local levels = { error = vim.diagnostic.severity.ERROR, note = vim.diagnostic.severity.INFO }

local function words_for(name)
  local words = { vim.g.hmc_program or "hmc", "--message-format", "json", "--stdin-name", name, "--", "-" }
  for _, file in ipairs(vim.fn.glob(vim.fn.fnamemodify(name, ":h") .. "/*.hs", false, true)) do
    if vim.fn.fnamemodify(file, ":p") ~= name then table.insert(words, file) end
  end
  return words
end

local function show(lines)
  local found, is_whole, said = {}, false, {}
  for _, line in ipairs(lines) do
    if line:sub(1, 1) == "{" then
      local object = vim.json.decode(line)
      if object.level == "end" then
        is_whole = true
      elseif object.start then
        local buffer = vim.fn.bufadd(object.file)
        found[buffer] = found[buffer] or {}
        table.insert(found[buffer], {
          lnum = object.start.line - 1, col = object.start.byte - 1,
          end_lnum = object["end"].line - 1, end_col = object["end"].byte - 1,
          severity = levels[object.level], code = object.kind, source = "hmc",
          message = object.hint ~= vim.NIL and object.text .. "\n" .. object.hint or object.text,
        })
      end
    elseif line ~= "" then
      table.insert(said, line)
    end
  end
  vim.diagnostic.reset(space)
  for buffer, items in pairs(found) do vim.diagnostic.set(space, buffer, items) end
  if not is_whole then vim.notify(table.concat(said, "\n"), vim.log.levels.ERROR) end
end

function M.check(buffer)
  local name = vim.fn.fnamemodify(vim.api.nvim_buf_get_name(buffer), ":p")
  local lines = {}
  local ok, job = pcall(vim.fn.jobstart, words_for(name), {
    stderr_buffered = true,
    on_stderr = function(_, data) lines = data end,
    on_exit = function() show(lines) end,
  })
  if not ok or job <= 0 then return vim.notify("hmc: the program can't be started", vim.log.levels.ERROR) end
  vim.fn.chansend(job, table.concat(vim.api.nvim_buf_get_lines(buffer, 0, -1, false), "\n") .. "\n")
  vim.fn.chanclose(job, "stdin")
  return job
end

function M.setup()
  vim.api.nvim_create_autocmd({ "BufReadPost", "BufWritePost", "InsertLeave", "TextChanged" }, {
    pattern = "*.hs", callback = function(event) M.check(event.buf) end,
  })
end

return M
