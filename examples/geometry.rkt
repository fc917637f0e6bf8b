#lang racket/base
; Points, shapes and paths of the plane.
;
; Lengths are in units of the plane, angles in radians; a path is a list of points.


#| What came before:
   #| rectangles alone, |# then circles.
   Polygons came last. |#
(require racket/class racket/contract/base racket/list
         racket/match ; for shapes
         racket/string
         (only-in racket/math pi [sqr square])
         (for-syntax racket/base
                     racket/syntax)) ; for the macros

(provide (struct-out point)
         (struct-out circle)
         ; A polygon is made by its maker alone.
         (rename-out [make-polygon polygon] [euclid |length of a step|])
         (contract-out
          #:unprotected-submodule unchecked
          [area (shape? . -> . real?)]
          [distance (->* (point? point?) (#:metric procedure?) real?)])
         canvas% λ-path #;taxicab)

;; Points

(struct point (x y) #:transparent)

(define origin (make-parameter (point 0 0)))
(define @unit 1)                        ; the length of one step

(define (move p [Δx 0] [Δy 0])
  (point (+ (point-x p) Δx) (+ (point-y p) Δy)))

(define (euclid Δx Δy) (sqrt (+ (square Δx) (square Δy))))
(define taxicab (lambda (Δx Δy) (+ (abs Δx) (abs Δy))))

; How far it is from a to b.
(define (distance a b #:metric [metric euclid])
  (metric (- (point-x b) (point-x a))   ; to the right
          (- (point-y b) (point-y a)))) ; and up

(define (centroid points)
  #;(displayln points) #;(newline)
  (define-values (x y n)
    (for/fold {[x 0] [y 0] [n 0]}
              ([p (in-list points)])
      (values (+ x (point-x p)) (+ y (point-y p)) (add1 n))))
  #;#;(printf "~a\n" n) (flush-output)
  (and (0 . < . n) (point (/ x n) (/ y n))

       ))

;; Shapes

(struct shape (name [tags #:auto #:mutable])
  #:auto-value '()
  #:property prop:custom-write
  (lambda (self port mode)
    (fprintf port "#<shape ~a>" (shape-name self))))

(struct circle shape (center radius)
  #:transparent
  #:guard (λ (name center radius kind)
            (unless (radius . > . 0)
              (raise-argument-error kind "a positive radius" 2 name center radius))
            (values name center radius)))

(struct polygon shape (corners) #:transparent)

(define (make-polygon #:name [name '|a polygon|] . corners)
  (polygon name corners))

(define-syntax-rule (with-origin (x y) body ...)
  (parameterize ([origin (point x y)]) body ...))

; Defines a function of shapes by patterns, and one that prints its arguments first.
(define-syntax (define-measure stx)
  (syntax-case stx (else)
    [(_ (name thing extra ...) [pattern body ...] ... [else default])
     (identifier? #'name)
     (with-syntax ([traced (format-id #'name "~a/traced" #'name)])
       #`(begin
           (define (name thing extra ...)
             (match thing [pattern body ...] ... [_ default]))
           (define (traced thing extra ...)
             #,@(for/list ([argument (syntax->list #'(thing extra ...))])
                  #`(printf "~a\n" #,argument))
             (name thing extra ...))))]
    [(_ . rest) (raise-syntax-error #f "no measure" stx #'rest)]))

(define (twice-area corners)
  (for/sum ([a (in-list corners)]
            [b (in-list (append (rest corners) (list (first corners))))])
    (match* (a b)
      [((point x y) (point z w)) (- (* x w) (* y z))])))

(define-measure (area thing)
  [(circle _ _ _ radius) (* pi (square radius))]
  [(polygon _ _ corners) (abs (/ (twice-area corners) 2))] ; Gauss's formula

  ; Other shapes are lines.
  [else 0])

;; Texts

(define banner #<<END
  Shapes & paths
; this line is no comment, and #| neither is this
END
  )

(define usage "usage: geometry FILE
  Each line of FILE is a shape:
    (circle X Y RADIUS)
    (polygon X Y ..)
")

(define shape-line #px"^\\((\\w+)((?:\\s+-?\\d+)*)\\)$")
(define png-header #"\211PNG\r\n\32\n")
(define (bitmap? bytes) (regexp-match? #rx#"^P[1-6]" bytes))
(define (bracket? c) (memv c '(#\( #\) #\[ #\])))
(define (skipped? c) (or (char=? c #\space) (eqv? c #\;) (eqv? c #\")))

(define (numbers text)
  (map string->number (regexp-split #rx"[ \t]+" (string-trim text))))

(define (pairs all)
  (let loop ([left all] [done null])
    (cond [(or (null? left) (null? (cdr left))) (reverse done)]
          [else (loop (cddr left) (cons (point (car left) (cadr left)) done))])))

(define (read-shape line)
  (match (regexp-match shape-line line)
    [#f #f] ; no shape
    [(list _ "circle" (app numbers (list x y radius))) (circle 'read (point x y) radius)]
    [(list _ kind (? string? more))
     #:when (string=? kind "polygon")
     (apply make-polygon #:name 'read (pairs (numbers more)))]
    [(list* _ kind _) (error 'read-shape "~a: no such shape" kind)]))

;; Paths and scenes

(define directions #(#(1 0) #(0 1) #(-1 0) #(0 -1)))
(define colors #hash((red . #xFF0000) (green . #x00FF00) (blue . #x0000FF)))
(define greek #hasheq((λ . "lambda") (|pi or so| . "π")))
(define default-pen #s(pen 1 #&solid #t))

(define (step where c)
  (case c
    [(#\n #\N) (move where 0 @unit)]
    [(#\s #\S) (move where 0 (- @unit))]
    [(#\e) (move where @unit)] [(#\w) (move where (- @unit))]
    ;; Any other step stays.

    [else where]))

(define λ-path
  (λ (start . steps)
    (for/fold ([where start] #:result where) ([c (in-list steps)])
      (step where c))))

(define (scene->datum shapes)
  `(scene (unit , @unit) ; not a splice
          (corner . ,(origin))
          (names ,@(map shape-name shapes) . end)
          (template `(shape ,name ,(scale , @unit) ,@',(map area shapes)))
          #| the kinds are '#;oval circle and polygon |#
          (kinds '#;oval (circle #;line polygon))))

(define canvas%
  (class object%
    (init-field [width 80] [height 24])
    (init [shapes '()])
    (field [items shapes])
    (super-new)

    (define/public (add! thing #:at [where (origin)])
      (set! items (cons (cons thing where) items))
      this)
    (define/public (total-area)
      (for/sum ([item (in-list items)]) (area (car item))))
    (define/public (crowded?)
      ( ; more than half
       (total-area) . > . (/ (* width height) 2)
       ; of the canvas
       ))))

(module+ test
  (require rackunit)
  (define square-of-1 (make-polygon (point 0 0) (point 1 0) (point 1 1) (point 0 1)))
  (define canvas (new canvas% [width 10] [height 10]))

  (check-equal? (area square-of-1) 1)
  (check-= (distance (point 0 0) (point 3 4)) 5 1e-9 "Pythagoras")
  (check-equal? (distance #:metric ; of streets
                          taxicab (point 0 0) (point 3 4)) 7)
  (check-equal? (λ-path (point 0 0) #\n #\n #\e #\space) (point 1 2))
  (check-false (bracket? #\a))
  (check-equal? (with-origin (2 3) (origin)) (point 2 3))
  (check-true (is-a? (send canvas add! square-of-1 #:at (point 1 2)) canvas%))
  (check-exn #rx"positive" (λ () (circle 'none (point 0 0) 0)))


  )
