;; Emacs in a terminal, with dap-mode and its windows. Keys stand for its commands. The environment names the adapter, the package with the test, and a
;; folder for dap-mode's own files. What is launched is as docs/use/EDITORS.md has it, from a folder below the package, where Emacs doesn't find cargo.
;; Nothing is compiled beside.
(setq native-comp-deferred-compilation nil)
(package-initialize)
(require 'dap-mode)
(require 'dap-ui)
(setq dap-auto-configure-features nil
      dap-auto-show-output nil
      dap-breakpoints-file (expand-file-name "breakpoints" (getenv "STATE"))
      lsp-session-file (expand-file-name "session" (getenv "STATE"))
      treemacs-text-scale nil
      dap-ui-locals-expand-depth 2)
(setf (cdr (assoc dap-ui--locals-buffer dap-ui-buffer-configurations)) '((side . right) (slot . 1) (window-width . 0.5)))
(dap-register-debug-provider "yovanelum" (lambda (conf) (plist-put conf :dap-server-path (list (getenv "ADAPTER")))))
(dap-mode 1)
(dap-ui-mode 1)
(menu-bar-mode -1)

(defun asked (command)
  "Makes a move that dap-mode has no command for."
  (let ((session (dap--cur-session)))
    (dap--send-message (dap--make-request command (list :threadId (dap--debug-session-thread-id session))) (dap--resp-handler) session)
    (setf (dap--debug-session-thread-id session) nil)))

(defun launch ()
  (interactive)
  (dap-debug (list :type "yovanelum" :request "launch" :name "run")))
(global-set-key (kbd "C-c l") #'launch)
(global-set-key (kbd "C-c v") #'dap-ui-locals)
(global-set-key (kbd "C-c n") #'dap-next)
(global-set-key (kbd "C-c i") #'dap-step-in)
(global-set-key (kbd "C-c b") (lambda () (interactive) (asked "stepBack")))
(global-set-key (kbd "C-c r") (lambda () (interactive) (asked "reverseContinue")))
