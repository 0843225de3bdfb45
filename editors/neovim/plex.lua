-- Neovim 0.7 or later: the language server for exchange texts. Put this file into
-- ~/.config/nvim/plugin. Signal files, tables and filters get the type plex by editors/ftdetect.vim.
local command = vim.g.plex_lsp_command or { 'plex-lsp' }
local client

if vim.filetype and vim.filetype.add then
  vim.filetype.add({ extension = { plex = 'plex' } })
end

local function attach(buffer)
  if not client or not vim.lsp.get_client_by_id(client) then
    client = vim.lsp.start_client({
      name = 'plex-lsp',
      cmd = command,
      root_dir = vim.fn.getcwd(),
    })
  end
  if client then
    vim.lsp.buf_attach_client(buffer, client)
  end
end

vim.api.nvim_create_autocmd('FileType', {
  pattern = 'plex',
  callback = function(event)
    attach(event.buf)
  end,
})
