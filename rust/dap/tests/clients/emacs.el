;; Emacs with dap-mode as the client, in batch: from the failing test to the cause and back. -*- lexical-binding: t -*-
;; The variables ADAPTER, SHOP and STATE name the adapter, the package with the test, and a folder for dap-mode's own files.
(package-initialize)
(require 'dap-mode)
(require 'dap-ui)
(setq dap-auto-configure-features nil
      dap-auto-show-output nil
      dap-breakpoints-file (expand-file-name "breakpoints" (getenv "STATE"))
      lsp-session-file (expand-file-name "session" (getenv "STATE")))
(dap-register-debug-provider "yovanelum" (lambda (conf) (plist-put conf :dap-server-path (list (getenv "ADAPTER")))))
(dap-mode 1)

(defvar stops 0 "How many stops were shown.")
(add-hook 'dap-stack-frame-changed-hook (lambda (_session) (setq stops (1+ stops))))

(defun show (what)
  "Prints the thread, the frame, and the line that the cursor is at."
  (let* ((session (dap--cur-session)) (frame (dap--debug-session-active-frame session)))
    (with-current-buffer (window-buffer (selected-window))
      (princ (format "%s: thread %s, %s:%s, %s\n" what (dap--debug-session-thread-id session)
                     (buffer-name) (line-number-at-pos) (gethash "name" frame))))))

(defun wait-for-stop (before)
  "Waits until another stop was shown than these."
  (let ((end (+ (float-time) 1700)))
    (while (and (= stops before) (< (float-time) end)) (accept-process-output nil 0.05))
    (when (= stops before) (princ "nothing stopped\n") (kill-emacs 1))))

(defun go (what move)
  "Makes a move, and shows where it stopped."
  (let ((before stops)) (funcall move) (wait-for-stop before) (show what)))

(defun asked (command)
  "A move that dap-mode has no command for."
  (lambda ()
    (let ((session (dap--cur-session)))
      (dap--send-message (dap--make-request command (list :threadId (dap--debug-session-thread-id session)))
                         (dap--resp-handler) session)
      (setf (dap--debug-session-thread-id session) nil))))

;; A breakpoint at the first receive.
(find-file (expand-file-name "tests/orders.rs" (getenv "SHOP")))
(goto-char (point-min))
(search-forward "let first = audit")
(dap-breakpoint-add)
(go "the test has failed"
    (lambda () (dap-debug (list :type "yovanelum" :request "launch" :name "orders" :test "no_order_is_missing" :cwd (getenv "SHOP")))))
(go "continue" (lambda () (dap-continue (dap--cur-session) (dap--debug-session-thread-id (dap--cur-session)))))
(go "step in" (lambda () (dap-step-in (dap--cur-session))))
(go "step back" (asked "stepBack"))
(go "next" (lambda () (dap-next (dap--cur-session))))
(go "reverse" (asked "reverseContinue"))
(dap-disconnect (dap--cur-session))
