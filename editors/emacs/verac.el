;;; verac.el --- Alarms and refusals of Verac in compilation buffers  -*- lexical-binding: t; -*-

;;; Commentary:

;; (load "/path/to/editors/emacs/verac.el"), and then M-x compile with `verac analyze a.c'.  Alarms are warnings,
;; refusals are errors, and the calls that lead to an alarm are links.

;; Columns of Verac count bytes, a tab as one.  With
;;   (add-hook 'compilation-mode-hook (lambda () (setq-local compilation-error-screen-columns nil)))
;; Emacs counts characters, a tab as one; as it comes it counts the columns of the screen.

;;; Code:

(require 'compile)

(add-to-list
 'compilation-error-regexp-alist-alist
 `(verac
   ,(concat
     "^\\(.+?\\):\\([1-9][0-9]*\\):\\([1-9][0-9]*\\): "
     "\\(?:refused: \\|\\("
     (regexp-opt
      '("Overflow" "DivideByZero" "Quotient" "ShiftAmount" "ShiftResult" "Indeterminate" "Fragment" "NullUse"
        "Dangling" "Bounds" "Access" "Alignment" "ReadOnly" "Unrelated" "NoValue" "AssertFailed"))
     " in \\)\\)")
   1 2 3 (4)))

(add-to-list
 'compilation-error-regexp-alist-alist
 '(verac-file "^\\(.+?\\): refused: " 1 nil nil 2))

;; A file with a place is matched by the first of the two.
(add-to-list 'compilation-error-regexp-alist 'verac-file)
(add-to-list 'compilation-error-regexp-alist 'verac)

(provide 'verac)

;;; verac.el ends here
