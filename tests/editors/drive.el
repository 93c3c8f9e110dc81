;;; drive.el --- Tests gqlls in Emacs 28 or later by eglot  -*- lexical-binding: t -*-

;; In a folder with a schema and a query, and with gqlls on the PATH:
;;     emacs --batch --no-site-file -l tests/editors/drive.el docs/EDITORS.md
;; It sets eglot up by the words of EDITORS.md, with a mode of its own in place of the package graphql-mode, and calls what a user's keys call. It prints what
;; differs and one line at the end. The status is 0 when nothing differs.
(package-initialize)
(unless (locate-library "eglot")
  (princ "emacs: eglot isn't installed (before Emacs 29 it is a package), so its tests are left out\n")
  (kill-emacs 0))
(dolist (library '(flymake seq xref)) (require library))
(setq inhibit-message t make-backup-files nil)
(define-derived-mode graphql-mode prog-mode "GraphQL")
(add-to-list 'auto-mode-alist '("\\.graphql\\'" . graphql-mode))
(with-temp-buffer
  (insert-file-contents (pop command-line-args-left))
  (search-forward "```elisp\n")
  (eval-region (point) (progn (search-forward "\n```\n") (match-beginning 0))))

(defvar tests 0)
(defvar failed 0)
(defun expect (what found wanted)
  (setq tests (1+ tests))
  (unless (equal found wanted)
    (setq failed (1+ failed))
    (princ (format "emacs: %s: %S, not %S\n" what found wanted))))

(defun until (is-ready)
  "Lets Emacs go on until IS-READY gives something, for ten seconds at most, and gives that."
  (let ((end (+ (float-time) 10)) found)
    (while (and (not (setq found (funcall is-ready))) (< (float-time) end))
      (accept-process-output nil 0.02))
    found))

(defun open (name)
  "Opens a file. eglot connects after the command of a user, and batch mode has none."
  (find-file name)
  (run-hooks 'post-command-hook)
  (flymake-start)
  (expect "eglot runs" (and (until #'eglot-managed-p) t) t))

(defun errors ()
  "The line, the column and the message of each error."
  (mapcar (lambda (it)
            (save-excursion
              (goto-char (flymake-diagnostic-beg it))
              (list (line-number-at-pos) (- (point) (line-beginning-position)) (replace-regexp-in-string "^gqlls.*?: " "" (flymake-diagnostic-text it)))))
          (flymake-diagnostics)))

(defun expect-errors (what wanted)
  "Sends what was typed, for which eglot waits until Emacs is idle, as it never is in batch mode."
  (eglot--signal-textDocument/didChange)
  (flymake-start)
  (until (lambda () (equal (errors) wanted)))
  (expect what (errors) wanted))

(defun go (line column)
  (goto-char (point-min))
  (forward-line (1- line))
  (move-to-column column))

(defun place ()
  (list (buffer-name) (line-number-at-pos) (current-column)))

(defun shown-at (function line column)
  "What one of eldoc's functions tells at a place."
  (let (shown)
    (go line column)
    (funcall function (lambda (text &rest _) (setq shown (or text ""))))
    (until (lambda () shown))))

(defun names (index)
  "All names of an index of imenu."
  (mapcan (lambda (it) (cons (car it) (and (consp (cdr it)) (names (cdr it))))) (copy-sequence index)))

(defun expect-lines (what &rest lines)
  (expect what (split-string (buffer-substring-no-properties (point-min) (point-max)) "\n") `(,@lines "")))

(open "schema.graphql")
(open "query.graphql")
(go 2 3)
(call-interactively #'xref-find-definitions)
(expect "the definition of pet" (place) '("schema.graphql" 4 2))
(call-interactively (if (fboundp 'xref-go-back) #'xref-go-back 'xref-pop-marker-stack))
(expect "and back" (place) '("query.graphql" 2 3))
(expect "the references of pet" (length (xref-backend-references 'eglot (xref-backend-identifier-at-point 'eglot))) 2)
(expect "hover on pet" (and (string-match "pet(id: ID!): Pet\\(.\\|\n\\)*One pet\\." (shown-at #'eglot-hover-eldoc-function 2 3)) t) t)
(expect "its signature" (string-prefix-p "pet(id: ID!): Pet" (shown-at #'eglot-signature-eldoc-function 2 10)) t)
(expect "the outline" (seq-difference '("Find" "$id" "pet" "parts" "name") (names (imenu--make-index-alist))) nil)
;; The server has answered, so it has told the errors of what was opened before.
(expect "no errors" (list (errors) (with-current-buffer "schema.graphql" (errors))) '(nil nil))

;; The emoji takes two units of UTF-16.
(go 2 2)
(insert "a(b: \"😀\") ! ")
(expect-errors "an error after an emoji" '((2 12 "expected } (8 more errors before the next definition)") (3 0 "expected a definition")))
(delete-char -12)
(expect-errors "no errors without it" nil)

(go 4 20)
(delete-char 1)
(completion-at-point)
(go 4 10)
(eglot-rename "some")
(expect-lines "a type completed, and a fragment renamed"
              "query Find($id: ID!) { # 😀" "  pet(id: $id) { ...some }" "}" "fragment some on Pet { name }")
(go 4 23)
(eglot-format (line-beginning-position) (line-end-position))
(expect-lines "the layout of a line" "query Find($id: ID!) { # 😀" "  pet(id: $id) { ...some }" "}" "fragment some on Pet {" "  name" "}")
(expect "the point stays at its word" (looking-at "name") t)
(eglot-format-buffer)
(expect-lines "the layout"
              "query Find($id: ID!) { # 😀" "  pet(id: $id) {" "    ...some" "  }" "}" "fragment some on Pet {" "  name" "}")

(let ((server (eglot-current-server)))
  (eglot-shutdown server)
  (expect "the server runs on" (jsonrpc-running-p server) nil))
(princ (format "emacs: %d tests, %d differences\n" tests failed))
(kill-emacs (if (= failed 0) 0 1))
