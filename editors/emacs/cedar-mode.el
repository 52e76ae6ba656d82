;;; cedar-mode.el --- Major mode for Cedar policies -*- lexical-binding: t -*-

;; Version: 1.0.0
;; Package-Requires: ((emacs "25.1"))
;; Keywords: languages

;;; Commentary:

;; Colours, comments and formatting of Cedar policies.  Each token has the
;; class that cedar-lsp gives it.  `cedar-program' is the formatter, and with
;; `cedar-format-on-save' a buffer is formatted before it is written.  Eglot
;; starts `cedar-lsp-program'.

;;; Code:

(require 'subr-x)

(defgroup cedar nil
  "Cedar policies."
  :group 'languages)

(defcustom cedar-program "cedar-fmt"
  "The formatter."
  :type 'file)

(defcustom cedar-lsp-program "cedar-lsp"
  "The language server."
  :type 'file)

(defcustom cedar-format-on-save nil
  "Whether a buffer is formatted before it is written."
  :type 'boolean)

(defface cedar-variable '((t :inherit font-lock-builtin-face)) "principal, action, resource, context.")
(defface cedar-slot '((t :inherit font-lock-preprocessor-face)) "Slots of templates.")
(defface cedar-annotation '((t :inherit font-lock-preprocessor-face)) "Names of annotations.")
(defface cedar-attribute '((t :inherit font-lock-variable-name-face)) "Attributes.")
(defface cedar-method '((t :inherit font-lock-function-name-face)) "Methods.")
(defface cedar-function '((t :inherit font-lock-function-name-face)) "Functions.")
(defface cedar-type '((t :inherit font-lock-type-face)) "Types of entities.")
(defface cedar-namespace '((t :inherit font-lock-constant-face)) "Namespaces.")
(defface cedar-number '((t :inherit font-lock-constant-face)) "Numbers.")
(defface cedar-boolean '((t :inherit font-lock-constant-face)) "true and false.")
(defface cedar-operator '((t :inherit font-lock-builtin-face)) "Operators.")

(defvar cedar-mode-syntax-table
  (let ((table (make-syntax-table)))
    (modify-syntax-entry ?/ ". 12" table)
    (modify-syntax-entry ?\n ">" table)
    (modify-syntax-entry ?\r ">" table)
    (modify-syntax-entry ?\" "\"" table)
    (modify-syntax-entry ?\\ "\\" table)
    (modify-syntax-entry ?' "." table)
    (modify-syntax-entry ?_ "w" table)
    (dolist (sign '(?+ ?- ?* ?% ?< ?> ?= ?! ?& ?| ?? ?@))
      (modify-syntax-entry sign "." table))
    table)
  "Comments, strings and words of Cedar.")

(defconst cedar--token
  (rx (or (group-n 1 (any "A-Za-z_") (* (any "A-Za-z0-9_")))
          (group-n 2 (+ (any "0-9")))
          (group-n 3 "?" (or "principal" "resource"))
          (group-n 4 "@")
          (group-n 5 (or "==" "!=" "<=" ">=" "&&" "||" (any "-<>+*/%!")))
          (group-n 6 (or "." "::"))
          (any "\"(){}[],;:")))
  "A word, a number, a slot, a sign, or the quote of a string.")

(defconst cedar--keywords
  '("permit" "forbid" "when" "unless" "if" "then" "else" "in" "is" "like" "has"))

(defconst cedar--variables '("principal" "action" "resource" "context"))

(defconst cedar--reserved '("true" "false" "if" "then" "else" "in" "is" "like" "has")
  "The words that are no names.")

(defun cedar--skip ()
  "Go over blanks and comments."
  (forward-comment (buffer-size)))

(defun cedar--before (start)
  "The word or sign before START, or nil."
  (save-excursion
    (goto-char start)
    (forward-comment (- (buffer-size)))
    (cond ((looking-back "::" (max (point-min) (- (point) 2))) "::")
          ((memq (char-before) '(?. ?@)) (string (char-before)))
          ((looking-back "[A-Za-z0-9_]" (max (point-min) (1- (point))))
           (let ((end (point)))
             (skip-chars-backward "A-Za-z0-9_")
             (buffer-substring-no-properties (point) end))))))

(defun cedar--face-of-name (word end before)
  "The face of WORD, no reserved one, which ends at END and has BEFORE in front."
  (save-excursion
    (goto-char end)
    (cedar--skip)
    (let ((is-called (eq (char-after) ?\()))
      (cond ((equal before ".") (if is-called 'cedar-method 'cedar-attribute))
            ((or (equal before "has") (looking-at ":\\(?:[^:]\\|\\'\\)")) 'cedar-attribute)
            ((looking-at "::")
             (forward-char 2)
             (cedar--skip)
             (if (eq (char-after) ?\") 'cedar-type 'cedar-namespace))
            ((member before '("::" "is")) (if is-called 'cedar-function 'cedar-type))
            ((member word cedar--keywords) 'font-lock-keyword-face)
            ((member word cedar--variables) 'cedar-variable)
            (is-called 'cedar-function)))))

(defun cedar--face ()
  "The face of the token that was matched last."
  (save-match-data
    (let ((word (match-string-no-properties 1)))
      (cond ((match-beginning 2) 'cedar-number)
            ((match-beginning 3) 'cedar-slot)
            ((match-beginning 4) 'cedar-annotation)
            ((match-beginning 5) 'cedar-operator)
            (word
             (let* ((end (match-end 1)) (before (cedar--before (match-beginning 1))))
               (cond ((equal before "@") 'cedar-annotation)
                     ((member word '("true" "false")) 'cedar-boolean)
                     ((member word cedar--reserved) 'font-lock-keyword-face)
                     (t (cedar--face-of-name word end before)))))))))

(defun cedar--is-text (at)
  "Whether AT is in a comment or a string."
  (save-excursion
    (save-match-data
      (nth 8 (syntax-ppss at)))))

(defun cedar--next (limit)
  "Find the next token before LIMIT that is in no comment and no string."
  (let (found)
    (while (and (not found) (re-search-forward cedar--token limit t))
      (setq found (not (or (eq (char-before) ?\") (cedar--is-text (match-beginning 0))))))
    found))

(defvar cedar-font-lock-keywords '((cedar--next (0 (cedar--face))))
  "What is coloured besides comments and strings.")

(defun cedar-format-buffer ()
  "Format the buffer; a refused text leaves it as it was."
  (interactive)
  (let ((out (generate-new-buffer " *cedar*"))
        (said (make-temp-file "cedar"))
        (coding-system-for-read 'utf-8)
        (coding-system-for-write 'utf-8))
    (unwind-protect
        (if (eq 0 (call-process-region nil nil cedar-program nil (list out said) nil "format"))
            (replace-buffer-contents out)
          (message "%s" (with-temp-buffer
                          (insert-file-contents said)
                          (string-trim (buffer-string)))))
      (kill-buffer out)
      (delete-file said))))

(defun cedar--before-save ()
  (when cedar-format-on-save
    (cedar-format-buffer)))

;;;###autoload
(define-derived-mode cedar-mode prog-mode "Cedar"
  "Major mode for Cedar policies."
  (setq-local comment-start "// ")
  (setq-local comment-end "")
  (setq-local comment-start-skip "//+[ \t]*")
  (setq-local indent-tabs-mode nil)
  (setq-local font-lock-multiline t)
  (setq-local font-lock-defaults '(cedar-font-lock-keywords))
  (add-hook 'before-save-hook #'cedar--before-save nil t))

;;;###autoload
(add-to-list 'auto-mode-alist '("\\.cedar\\'" . cedar-mode))

(with-eval-after-load 'eglot
  (defvar eglot-server-programs)
  (add-to-list 'eglot-server-programs (cons 'cedar-mode (lambda (&rest _) (list cedar-lsp-program)))))

(provide 'cedar-mode)

;;; cedar-mode.el ends here
