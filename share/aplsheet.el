;;; aplsheet.el --- the symbols of aplsheet  -*- coding: utf-8; lexical-binding: t -*-

;;; Commentary:
;; A backquote, then the key of the APL keyboard.  docs/TYPING.md has the map of the keys.

;;; Code:
(require 'quail)

(quail-define-package
 "aplsheet" "UTF-8" "⍴" t
 "The symbols of aplsheet: a backquote, then the key of the APL keyboard."
 nil t t)

(quail-define-rules
 ("`-" ?×)
 ("`=" ?÷)
 ("`s" ?⌈)
 ("`d" ?⌊)
 ("`4" ?≤)
 ("`6" ?≥)
 ("`8" ?≠)
 ("`0" ?∧)
 ("`9" ?∨)
 ("`)" ?⍲)
 ("`(" ?⍱)
 ("`r" ?⍴)
 ("`<" ?⍪)
 ("`y" ?↑)
 ("`u" ?↓)
 ("`%" ?⌽)
 ("`&" ?⊖)
 ("`^" ?⍉)
 ("`/" ?⌿)
 ("`." ?⍀)
 ("`i" ?⍳)
 ("`e" ?∊)
 ("`n" ?⊤)
 ("`b" ?⊥)
 ("`j" ?∘)
 ("`[" ?←)
 ("`2" ?¯)
 ("`," ?⍝)
 ("`h" ?∆)
 ("`>" ?⍙)
 ("`3" ?<)
 ("`5" ?=)
 ("`7" ?>)
 ("`t" ?~)
 ("`p" ?*)
 ("`f" ?_)
 ("`k" ?')
 ("`m" ?|)
 ("``" ?`))

(define-derived-mode aplsheet-mode text-mode "aplsheet"
  "Text with the symbols of aplsheet."
  (set-input-method "aplsheet"))

(add-to-list 'auto-mode-alist '("\\.apl\\'" . aplsheet-mode))

(provide 'aplsheet)
;;; aplsheet.el ends here
