;;; Reads the lines of $LINES in a compilation buffer, and writes what it matches.  -*- lexical-binding: t; -*-

(load (expand-file-name "../../editors/emacs/verac.el") nil t)

(defun matched-here ()
  "The message that begins at this line, or nil."
  (let ((message (get-text-property (point) 'compilation-message)))
    (when message
      (let ((place (compilation--message->loc message)))
        (format "%s|%s|%s|%s\n" (if (= 2 (compilation--message->type message)) "E" "W")
                (caar (compilation--loc->file-struct place))
                (or (compilation--loc->line place) 0) (or (compilation--loc->col place) 0))))))

(with-temp-buffer
  (insert-file-contents (getenv "LINES"))
  (compilation-mode)
  (compilation--ensure-parse (point-max))
  (goto-char (point-min))
  (while (not (eobp))
    (princ (or (matched-here) ""))
    (forward-line)))
