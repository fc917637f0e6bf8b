#lang racket
(require racket/class "shelf.rkt" (for-syntax racket/base syntax/parse))
(provide counter% read-rows (struct-out row))

; A counter that can be watched.
(define counter% (class* object% (watched<%>) (init-field [count 0] [watchers '()])
    (define/public (get-count) count)
    (define/public (add! n) (set! count (+ count n)) (for-each (lambda (watch) (watch count)) watchers))
    (super-new)))

(define-struct row (key value) #:transparent #:mutable)

(define (read-rows port) (dynamic-wind (lambda () (lock! port)) (lambda () (for/lists (keys values) ([line (in-lines port)])
   (match-define (list key value) (string-split line "=")) (values key (string->number value))))
   (lambda () (unlock! port))))

(define-syntax (my-or stx) (syntax-parse stx
    [(_) #'#f]
    [(_ first rest:expr ...) (quasisyntax/loc stx (let ([value first]) (if value value (my-or rest ...))))]))

(define (first-row rows wanted?) (let/ec found (for ([row (in-list rows)]) (when (wanted? row) (found row))) #f))

(define (start!) (set! the-shelf (open-shelf (build-path (find-system-path 'pref-dir) "shelf" "rows") #:exists 'append)))
