-- Neovim from 0.7 on: copy it to ~/.config/nvim/after/ftplugin/lc3lab.lua
local id = vim.g.lc3lab_lsp or vim.lsp.start_client({ name = 'lc3lab', cmd = { 'lc3lab', 'lsp' }, root_dir = vim.fn.getcwd() })
vim.g.lc3lab_lsp = id
vim.lsp.buf_attach_client(0, id)
