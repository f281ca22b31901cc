-- Decks of L6 in neovim 0.7 and later: what is wrong is shown while it is typed.
-- With the plugin nvim-dap its runs are debugged, forward and back.
-- Put this file where `require` finds it, or say `luafile l6.lua` in init.vim.
vim.cmd("autocmd BufRead,BufNewFile *.deck setfiletype l6")

local client
vim.api.nvim_create_autocmd("FileType", {
  pattern = "l6",
  callback = function(event)
    client = client or vim.lsp.start_client({ name = "l6", cmd = { "l6ed", "lsp" } })
    if client then
      vim.lsp.buf_attach_client(event.buf, client)
    end
    local keys = { gd = "definition", K = "hover", gr = "references", ["<F2>"] = "rename", ["<F4>"] = "code_action" }
    for key, call in pairs(keys) do
      vim.keymap.set("n", key, vim.lsp.buf[call], { buffer = event.buf })
    end
    vim.bo[event.buf].omnifunc = "v:lua.vim.lsp.omnifunc"
    if vim.lsp.inlay_hint then -- from neovim 0.10 on: the numbers of statements
      vim.lsp.inlay_hint.enable(true, { bufnr = event.buf })
    end
  end,
})

local has_dap, dap = pcall(require, "dap")
if has_dap then
  dap.adapters.l6 = { type = "executable", command = "l6ed", args = { "dap" } }
  dap.configurations.l6 = {
    { type = "l6", request = "launch", name = "Run the deck", program = "${file}", stopOnEntry = true },
  }
end

-- What nvim-dap has no commands for: `:L6Watch MV LN` stops where the value of one of these chains changes, and of no other.
vim.api.nvim_create_user_command("L6Watch", function(words)
  local session = has_dap and dap.session()
  if not session then
    return print("no run is debugged")
  end
  local watches = {}
  for _, chain in ipairs(words.fargs) do
    table.insert(watches, { dataId = chain })
  end
  session:request("setDataBreakpoints", { breakpoints = watches }, function(wrong, body)
    for number, made in ipairs(wrong and {} or body.breakpoints) do
      if not made.verified then
        print("not watched: " .. words.fargs[number])
      end
    end
  end)
end, { nargs = "*" })
