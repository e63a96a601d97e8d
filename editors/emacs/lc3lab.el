;; Emacs with eglot: load it in the init file; then M-x eglot in a source.
(define-derived-mode lc3lab-mode prog-mode "lc3lab" (setq-local comment-start ";"))
(add-to-list 'auto-mode-alist '("\\.asm\\'" . lc3lab-mode))
(with-eval-after-load 'eglot (add-to-list 'eglot-server-programs '(lc3lab-mode "lc3lab" "lsp")))
