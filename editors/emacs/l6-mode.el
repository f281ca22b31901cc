;;; l6-mode.el --- Decks of L6 -*- lexical-binding: t -*-

;; Version: 1.0
;; Package-Requires: ((emacs "26.1"))
;; Keywords: languages

;;; Commentary:

;; A mode for decks of L6.  With eglot, which Emacs has from version 29 on, M-x eglot shows what is wrong with a
;; deck while it is typed.  With dap-mode, M-x dap-debug goes through its run, forward and back.

;;; Code:

(defvar l6-mode-font-lock-keywords
  '(("^\\*.*" . font-lock-comment-face)
    ("^\\$\\(INPUT\\|COMMANDS\\)[ \t]*$" . font-lock-preprocessor-face)
    ("^[A-Za-z][A-Za-z0-9]\\{0,5\\}\\_>" . font-lock-function-name-face)
    ("^.\\{72\\}\\(.+\\)$" 1 'shadow t)
    ("(\\([^(),]*\\),[ \t]*PH[ \t]*)" 1 font-lock-string-face)
    ("([^(),]*,[ \t]*\\([A-Za-z0-9]\\{1,3\\}\\)[ \t]*[,)]" 1 font-lock-builtin-face)
    ("([ \t]*\\(PL\\)[ \t]*)" 1 font-lock-builtin-face)
    ("\\_<\\(IF\\|NOT\\|IFALL\\|IFANY\\|IFNONE\\|IFNALL\\|THEN\\|DONE\\|FAIL\\)\\_>" . font-lock-keyword-face))
  "What is shown in which face in a deck.")

;;;###autoload
(define-derived-mode l6-mode prog-mode "L6"
  "Major mode for decks of L6."
  (setq-local comment-start "* ")
  (setq-local comment-start-skip "^\\*[ \t]*")
  (setq-local indent-tabs-mode nil)
  (setq-local tab-stop-list '(7))
  (setq-local indent-line-function #'l6-indent-line)
  (setq-local compile-command
              (let ((file (shell-quote-argument (or (buffer-file-name) ""))))
                (format "l6 check --name %s < %s" file file)))
  (setq-local font-lock-defaults '(l6-mode-font-lock-keywords t t)))

(defun l6-indent-line ()
  "Put the body of a card without a label into column 8."
  (interactive)
  (if (save-excursion (beginning-of-line) (looking-at "[ \t]*$\\|[ \t]"))
      (indent-line-to 7)
    (move-to-column 7 t)))

;;;###autoload
(add-to-list 'auto-mode-alist '("\\.deck\\'" . l6-mode))

(with-eval-after-load 'eglot
  (defvar eglot-server-programs)
  (add-to-list 'eglot-server-programs '(l6-mode . ("l6ed" "lsp"))))

(declare-function dap-register-debug-provider "dap-mode")
(declare-function dap-register-debug-template "dap-mode")
(declare-function dap--step "dap-mode")
(declare-function dap--cur-active-session-or-die "dap-mode")
(declare-function dap--make-request "dap-mode")
(declare-function dap--send-message "dap-mode")
(declare-function dap--resp-handler "dap-mode")
(declare-function dap--resume-application "dap-mode")
(declare-function dap-request "dap-mode")

(defun l6-debug-provider (configuration)
  "Add to CONFIGURATION how the debug adapter is started, and which deck is run."
  (unless (plist-get configuration :program)
    (setq configuration (plist-put configuration :program (buffer-file-name))))
  (plist-put configuration :dap-server-path '("l6ed" "dap")))

(defun l6-step-back ()
  "Go back to where a statement began."
  (interactive)
  (dap--step "stepBack" (dap--cur-active-session-or-die)))

(defun l6-reverse-continue ()
  "Go back to where one stops."
  (interactive)
  (dap--step "reverseContinue" (dap--cur-active-session-or-die)))

(defun l6-ask (command arguments shown)
  "Ask for COMMAND with ARGUMENTS; show what SHOWN makes of the answer's body."
  (dap--send-message
   (dap--make-request command arguments)
   (lambda (answer)
     (message "%s" (if (gethash "success" answer)
                       (funcall shown (gethash "body" answer))
                     (gethash "message" answer))))
   (dap--cur-active-session-or-die)))

(defun l6-step-into ()
  "Step into one of the calls that are ahead in the statement."
  (interactive)
  (let* ((session (dap--cur-active-session-or-die))
         (ahead (gethash "targets" (dap-request session "stepInTargets" :frameId 0)))
         (calls (mapcar (lambda (call) (cons (gethash "label" call) (gethash "id" call))) ahead)))
    (if (null calls)
        (message "No call is ahead in the statement")
      (dap--send-message
       (dap--make-request
        "stepIn" (list :threadId 1 :targetId (cdr (assoc (completing-read "Step into: " calls nil t) calls))))
       (dap--resp-handler) session)
      (dap--resume-application session))))

(defun l6-evaluate (text)
  "Show what TEXT reads as: a chain or a number; or make a move, as :goto 57."
  (interactive "sEvaluate: ")
  (l6-ask "evaluate" (list :expression text) (lambda (body) (gethash "result" body))))

(defun l6-watch (chains)
  "Stop where the value of one of CHAINS changes, which blanks part."
  (interactive "sWatch: ")
  (let ((names (split-string chains)))
    (l6-ask "setDataBreakpoints"
            (list :breakpoints (vconcat (mapcar (lambda (name) (list :dataId name)) names)))
            (lambda (body)
              (mapconcat (lambda (made)
                           (format "%s is %swatched" (pop names) (if (gethash "verified" made) "" "not ")))
                         (gethash "breakpoints" body) ", ")))))

(defun l6-stop-at (labels)
  "Stop where one of LABELS begins, which blanks part."
  (interactive "sStop at the labels: ")
  (let ((names (split-string labels)))
    (l6-ask "setFunctionBreakpoints"
            (list :breakpoints (vconcat (mapcar (lambda (name) (list :name name)) names)))
            (lambda (body)
              (mapconcat (lambda (made)
                           (format "%s %s" (pop names) (if (gethash "verified" made) "is set" "is no label")))
                         (gethash "breakpoints" body) ", ")))))

(with-eval-after-load 'dap-mode
  (dap-register-debug-provider "l6" #'l6-debug-provider)
  (dap-register-debug-template
   "L6" (list :type "l6" :request "launch" :name "L6" :stopOnEntry t)))

(provide 'l6-mode)

;;; l6-mode.el ends here
