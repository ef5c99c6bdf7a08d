;;; report.el --- Writes what teco-mode makes of files -*- lexical-binding: t -*-
;;; Code:

(require 'teco-mode)
(require 'json)
(require 'subr-x)

(defun report-faces ()
  "The name of the face of each byte of each line of the buffer, or an empty one."
  (font-lock-ensure)
  (goto-char (point-min))
  (let (lines)
    (while (progn
             (push (vconcat (mapcan (lambda (place)
                                      (make-list (string-bytes (char-to-string (char-after place)))
                                                 (symbol-name (or (get-text-property place 'face) '##))))
                                    (number-sequence (point) (1- (line-end-position)))))
                   lines)
             (= 0 (forward-line 1))))
    (vconcat (nreverse lines))))

(defun report-colors ()
  "Write to the file $OUT the faces of each file of the command line."
  (let (all (coding-system-for-read 'utf-8-unix))
    (dolist (file command-line-args-left)
      (with-current-buffer (find-file-noselect file t)
        (push (cons file (report-faces)) all)))
    (setq command-line-args-left nil)
    (write-region (json-encode all) nil (getenv "OUT"))))

(defun report-wait (done)
  "Wait until DONE says so, or for a minute."
  (let ((end (+ 60 (float-time))))
    (while (and (not (funcall done)) (< (float-time) end))
      (accept-process-output nil 0.05))))

(defun report-column ()
  "The column of point in bytes, from 1."
  (1+ (- (position-bytes (point)) (position-bytes (line-beginning-position)))))

(defun report-flymake ()
  "Line, column in bytes, kind and words of each diagnostic of the buffer."
  (let ((found 'none))
    (teco-flymake (lambda (given &rest _) (setq found given)))
    (report-wait (lambda () (not (eq found 'none))))
    (vconcat (mapcar (lambda (it)
                       (goto-char (flymake-diagnostic-beg it))
                       (vector (line-number-at-pos) (report-column)
                               (symbol-name (flymake-diagnostic-type it)) (flymake-diagnostic-text it)))
                     found))))

(defun report-compile ()
  "Line, column and kind of each place to which `next-error' goes after `compile'."
  (let* ((compilation-ask-about-save nil)
         (compilation-skip-threshold 0)
         is-finished found
         (compilation-finish-functions (list (lambda (&rest _) (setq is-finished t))))
         (output (compile compile-command)))
    (report-wait (lambda () is-finished))
    (with-current-buffer output
      (compilation--ensure-parse (point-max))
      (goto-char (point-min))
      (while (ignore-errors (compilation-next-error 1) t)
        (let ((kind (compilation--message->type (get-text-property (point) 'compilation-message))))
          (save-current-buffer
            (save-window-excursion
              (compile-goto-error)
              (push (vector (line-number-at-pos) (report-column) kind) found))))))
    (vconcat (nreverse found))))

(defun report-faults ()
  "Write to the file $OUT what flymake and `compile' report of the file of the command line."
  (with-current-buffer (find-file-noselect (pop command-line-args-left))
    (write-region (json-encode (list (cons "flymake" (report-flymake)) (cons "compile" (report-compile)))) nil (getenv "OUT"))))

;;; report.el ends here
