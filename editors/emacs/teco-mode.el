;;; teco-mode.el --- Command strings of TECO -*- lexical-binding: t -*-

;; Package-Requires: ((emacs "28.1"))

;;; Commentary:
;; Colors sources (*.teco) and bytes (*.tec) by a reader of their tokens.  Flymake and `compile' check them by `tecol -c'.

;;; Code:

(require 'compile)
(require 'flymake)

(defgroup teco nil "Command strings of TECO." :group 'languages)

(defcustom teco-tecol "tecol" "The program that checks command strings." :type 'string)

(defvar-local teco-bytes nil "Whether the buffer has bytes, and no source.")
(defvar-local teco--check nil "The check that is under way.")

(dolist (row '((wrong . font-lock-warning-face) (modifier . font-lock-preprocessor-face) (number . font-lock-constant-face)
               (value . font-lock-constant-face) (operator . default) (command . font-lock-keyword-face)
               (register . font-lock-variable-name-face) (loop . font-lock-builtin-face) (test . font-lock-builtin-face)
               (undo . font-lock-builtin-face) (escape . font-lock-builtin-face) (byte . font-lock-constant-face)
               (text . font-lock-string-face) (jump . font-lock-function-name-face) (tag . font-lock-function-name-face)
               (delimiter . font-lock-builtin-face) (comment . font-lock-comment-face)))
  (custom-declare-face (intern (format "teco-%s" (car row))) `((t :inherit ,(cdr row)))
                       (format "What is of the kind %s in command strings." (car row)) :group 'teco))

;;; What a source stands for

(defvar teco--bytes nil "The characters that were read so far, the last one first: each with its place in the buffer and the place after it.")
(defvar teco--blanks nil "The blanks after them, which count if the line goes on.")
(defvar teco--line nil "Where in a line the reader is: `first', `margin', `blank' or `text'.")

(defun teco--put (char end)
  "Reads CHAR, which stands from point up to END, or nothing where CHAR is nil."
  (setq teco--bytes (append teco--blanks teco--bytes) teco--blanks nil teco--line 'text)
  (when char (push (list char (point) end) teco--bytes))
  (goto-char end))

(defun teco--after-caret (char)
  "The character that a caret and CHAR stand for, `nothing', or nil where a caret can't be."
  (cond ((null char) nil)
        ((memq char '(?$ ?!)) char)
        ((memq char '(?~ ?=)) ?^)
        ((eq char ??) 127)
        ((eq char ?`) ?')
        ((eq char ?.) 'nothing)
        ((<= ?@ char ?_) (- char 64))
        ((<= ?a char ?z) (- char 96))))

(defun teco--read-caret ()
  "Reads a caret and the character after it."
  (let ((char (teco--after-caret (char-after (1+ (point)))))
        (end (min (+ 2 (point)) (point-max))))
    (if char
        (teco--put (and (integerp char) char) end)
      (put-text-property (point) end 'face 'teco-wrong)
      (goto-char end))))

(defun teco--read-blank ()
  "Reads a blank, or skips it in a margin."
  (if (memq teco--line '(first margin))
      (setq teco--line 'margin)
    (setq teco--line 'blank)
    (push (list (char-after) (point) (1+ (point))) teco--blanks))
  (forward-char))

(defun teco--read-line-end ()
  "Skips a line end, with the blanks before it."
  (setq teco--blanks nil teco--line (if (eq ?\n (caar teco--bytes)) 'blank 'margin))
  (forward-char))

(defun teco--read-source ()
  "The characters that the buffer stands for as a source, each with its places.  Colors the comments."
  (let (teco--bytes teco--blanks (teco--line 'first))
    (goto-char (point-min))
    (while (not (eobp))
      (cond ((or (and (not (eq teco--line 'text)) (looking-at "!!.*")) (and (bobp) (looking-at "#!.*")))
             (put-text-property (point) (match-end 0) 'face 'teco-comment)
             (goto-char (match-end 0)))
            ((eolp) (teco--read-line-end))
            ((looking-at "[ \t\r]") (teco--read-blank))
            ((looking-at "\\^") (teco--read-caret))
            (t (teco--put (if (looking-at "\\$") ?\e (char-after)) (1+ (point))))))
    (nreverse teco--bytes)))

(defun teco--read-bytes ()
  "The characters of the buffer, each with its places."
  (let ((place (1- (point-min))))
    (mapcar (lambda (char) (setq place (1+ place)) (list char place (1+ place))) (buffer-string))))

;;; Tokens: point is in a buffer of the characters that were read

(defvar teco--paint nil "Gives a face to what is between two places of the characters.")

(defun teco--color (begin end kind)
  "Colors what is from BEGIN up to END as KIND."
  (funcall teco--paint begin end (intern (format "teco-%s" kind))))

(defconst teco--plain
  '(("[0-9]+" . number)
    ("[BZH.]\\|\\^[EN]\\|[\x05\x0e]" . value)
    ("[-+*/&#(),]" . operator)
    ("PW\\|EX\\|==?\\|[JCRLDKTVPYA\\]\\|\\^[TX]\\|[\x14\x18]" . command)
    ("[<>;]" . loop)
    ("[|']\\|\"[EFUNGLSTADRVW]" . test)
    ("\\(?:\\^\\^\\|\x1e\\)\\(?:.\\|\n\\)" . byte)
    ("\e" . escape)
    ("[{}~]" . undo))
  "What has no operand, or one of a byte.")

(defun teco--plain-token ()
  "Colors a token without a text, if one is at point, and goes behind it."
  (let ((row (seq-find (lambda (row) (looking-at (car row))) teco--plain)))
    (when row
      (teco--color (point) (match-end 0) (cdr row))
      (goto-char (match-end 0)))))

(defun teco--register-token ()
  "Colors a command on a register, if one is at point, and goes behind it."
  (when (looking-at "[][QUXGM%]\\([A-Z0-9]\\)")
    (teco--color (point) (match-beginning 1) 'command)
    (teco--color (match-beginning 1) (match-end 1) 'register)
    (goto-char (match-end 1))))

(defun teco--text (delimiter kind)
  "Colors a text from point up to DELIMITER as KIND, and goes behind it.  Without an end it goes on to the last byte."
  (let* ((begin (point))
         (case-fold-search nil)
         (end (search-forward delimiter nil 'end)))
    (teco--color begin (if end (1- end) (point)) kind)
    (when end (teco--color (1- end) end 'delimiter))
    t))

(defun teco--delimiter (at usual)
  "The delimiter of a text: USUAL, or the character at point where there is an AT, which is colored."
  (if (not (and at (not (eobp))))
      usual
    (teco--color (point) (1+ (point)) 'delimiter)
    (forward-char)
    (char-to-string (char-before))))

(defun teco--text-token (at)
  "Colors a command with a text, if one is at point, and goes behind it.  With AT any byte ends the text."
  (when (looking-at "\\(FS\\)\\|\\(\\^A\\|\x01\\)\\|\\(O\\)\\|[INS_\t]\\|\\(?:\\^U\\|\x15\\)\\([A-Z0-9]\\)")
    (let ((two (match-beginning 1)) (typed (match-beginning 2)) (kind (if (match-beginning 3) 'jump 'text))
          (register (match-beginning 4)) (end (match-end 0)))
      (teco--color (point) (or register end) 'command)
      (when register (teco--color register end 'register))
      (goto-char end)
      (let ((delimiter (teco--delimiter at (if typed "\x01" "\e"))))
        (when two (teco--text delimiter 'text))
        (teco--text delimiter kind)))))

(defun teco--tag-token ()
  "Colors a tag, if one is at point, and goes behind it."
  (when (looking-at "![^!]*!?")
    (teco--color (point) (match-end 0) 'tag)
    (goto-char (match-end 0))))

(defun teco--token ()
  "Colors what is at point, and goes behind it."
  (let ((begin (point)) (case-fold-search t))
    (skip-chars-forward "@:")
    (teco--color begin (point) 'modifier)
    (or (teco--text-token (string-search "@" (buffer-substring begin (point))))
        (teco--plain-token) (teco--register-token) (teco--tag-token)
        (unless (eobp)
          (teco--color (point) (1+ (point)) 'wrong)
          (forward-char)))))

(defun teco--tokens (characters)
  "Colors the tokens of CHARACTERS by `teco--paint'."
  (with-temp-buffer
    (insert (apply #'string characters))
    (goto-char (point-min))
    (while (progn (skip-chars-forward " \r\n\0") (not (eobp)))
      (teco--token))))

(defun teco--fontify (&rest _)
  "Colors the whole buffer, since a text may begin anywhere before a place."
  (save-excursion
    (save-restriction
      (widen)
      (with-silent-modifications
        (remove-text-properties (point-min) (point-max) '(face nil))
        (let* ((buffer (current-buffer))
               (read (if teco-bytes (teco--read-bytes) (teco--read-source)))
               (places (vconcat read))
               (teco--paint (lambda (begin end face)
                              (with-current-buffer buffer
                                (while (< begin end)
                                  (let ((place (cdr (aref places (1- begin)))))
                                    (put-text-property (car place) (cadr place) 'face face))
                                  (setq begin (1+ begin)))))))
          (teco--tokens (mapcar #'car read))))
      `(jit-lock-bounds ,(point-min) . ,(point-max)))))

;;; Checks

(defun teco--command (&rest words)
  "The command that checks, with WORDS after its options."
  `(,teco-tecol "-c" ,@(and teco-bytes '("-r")) ,@words))

(defun teco--place (line column)
  "The place in the buffer of LINE and COLUMN, which counts bytes from 1."
  (save-excursion
    (goto-char (point-min))
    (forward-line (1- line))
    (min (line-end-position) (or (byte-to-position (+ (position-bytes (point)) column -1)) (point-max)))))

(defun teco--remarks (source)
  "The diagnostics for the buffer SOURCE of the lines in this buffer."
  (let (found)
    (goto-char (point-min))
    (while (re-search-forward "^-:\\([0-9]+\\):\\([0-9]+\\): \\(hint: \\(?:not checked: \\)?\\)?\\(.*\\)$" nil t)
      (let* ((line (string-to-number (match-string 1)))
             (column (string-to-number (match-string 2)))
             (kind (cond ((null (match-string 3)) :error) ((string= "hint: " (match-string 3)) :note) (t :warning)))
             (words (match-string 4)))
        (with-current-buffer source
          (save-restriction
            (widen)
            (let ((at (teco--place line column)))
              (push (flymake-make-diagnostic source at (min (1+ at) (point-max)) kind words) found))))))
    (nreverse found)))

(defun teco--checked (process report source)
  "Gives REPORT what PROCESS printed of the buffer SOURCE, if no later check is under way."
  (when (memq (process-status process) '(exit signal))
    (unwind-protect
        (when (and (buffer-live-p source) (eq process (buffer-local-value 'teco--check source)))
          (let ((found (with-current-buffer (process-buffer process) (teco--remarks source))))
            (with-current-buffer source (funcall report found))))
      (kill-buffer (process-buffer process)))))

(defun teco-flymake (report &rest _)
  "Checks the buffer, and gives REPORT the faults and hints."
  (unless (executable-find teco-tecol)
    (error "No program %s" teco-tecol))
  (when (process-live-p teco--check)
    (kill-process teco--check))
  (let ((source (current-buffer)))
    (setq teco--check
          (make-process :name "tecol" :buffer (generate-new-buffer " *tecol*") :noquery t :connection-type 'pipe
                        :command (teco--command)
                        :sentinel (lambda (process _) (teco--checked process report source))))
    (save-restriction
      (widen)
      (process-send-region teco--check (point-min) (point-max)))
    (process-send-eof teco--check)))

(add-to-list 'compilation-error-regexp-alist-alist
             '(tecol "^\\([^:\n]+\\):\\([0-9]+\\):\\([0-9]+\\): \\(?:\\(hint: not checked\\)\\|\\(hint\\)\\): " 1 2 3 (4 . 5)))
(add-to-list 'compilation-error-regexp-alist 'tecol)

(defun teco--set-command ()
  "Lets `compile' check the file of the buffer."
  (when buffer-file-name
    (setq-local compile-command
                (mapconcat #'shell-quote-argument (teco--command (file-name-nondirectory buffer-file-name)) " "))))

;;;###autoload
(define-derived-mode teco-mode prog-mode "TECO"
  "A mode for sources of TECO command strings."
  (setq-local comment-start "!! " comment-start-skip "!!+[ \t]*")
  (setq-local font-lock-defaults '(nil t) font-lock-fontify-region-function #'teco--fontify)
  ;; a column of tecol counts bytes
  (setq-local compilation-error-screen-columns nil)
  (teco--set-command)
  (add-hook 'flymake-diagnostic-functions #'teco-flymake nil t))

;;;###autoload
(define-derived-mode teco-bytes-mode teco-mode "TECO bytes"
  "A mode for TECO command strings that are kept as bytes."
  (setq teco-bytes t)
  (teco--set-command))

;;;###autoload
(progn
  (add-to-list 'auto-mode-alist '("\\.teco\\'" . teco-mode))
  (add-to-list 'auto-mode-alist '("\\.tec\\'" . teco-bytes-mode))
  (add-to-list 'magic-fallback-mode-alist '("#!.*\\<teco\\>" . teco-mode)))

(provide 'teco-mode)
;;; teco-mode.el ends here
