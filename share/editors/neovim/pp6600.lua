-- Debug the peripheral processors of a CDC 6600, by nvim-dap. The page docs/PANEL.md says how it is used.
local dap = require('dap')

dap.adapters.pp6600 = {type = 'executable', command = 'pp6600-debug-adapter'}

-- :PP SCRIPT [DECK]
vim.api.nvim_create_user_command('PP', function(given)
  local script, deck = unpack(given.fargs)
  dap.run({type = 'pp6600', request = 'launch', name = script, processor = '0',
           script = vim.fn.fnamemodify(script, ':p'), deck = deck and vim.fn.fnamemodify(deck, ':p') or ''})
end, {nargs = '+', complete = 'file'})

-- :PPSource SOURCE [DECK]
vim.api.nvim_create_user_command('PPSource', function(given)
  local source, deck = unpack(given.fargs)
  dap.run({type = 'pp6600', request = 'launch', name = source, processor = '0',
           sources = {['0'] = vim.fn.fnamemodify(source, ':p')}, deck = deck and vim.fn.fnamemodify(deck, ':p') or ''})
end, {nargs = '+', complete = 'file'})

-- Listings follow the machine.
vim.o.autoread = true
dap.listeners.after.event_stopped.pp6600 = function() vim.cmd('checktime') end

vim.keymap.set('n', '<F5>', dap.continue)
vim.keymap.set('n', '<S-F5>', dap.reverse_continue)
vim.keymap.set('n', '<F9>', dap.toggle_breakpoint)
vim.keymap.set('n', '<F10>', dap.step_over)
vim.keymap.set('n', '<F11>', dap.step_back)
vim.keymap.set('n', '<F12>', dap.repl.open)
