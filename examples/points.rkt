#lang racket/base
; Points.
(require racket/list   racket/string)



(struct point (x y)
  #:transparent)
(define (norm p) ; squared
  (let ([x (point-x p)]
        [y (point-y p)])
    (+ (* x x) (* y y))))
(define (sign n)
  (cond [(< n 0) 'neg] [(= n 0) 'zero]
        ; the rest
        [else 'pos]))
(for ([i (in-range 3)]) (displayln (norm (point i i))))
