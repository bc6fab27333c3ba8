;;; How objects of the adapter for Racket's Chez Scheme keep their fields, and of which kinds its roots are. The adapter
;;; in C calls the procedures at the end. `NAME-by-c` are setters of the interface for C.

(define vector-set-by-c! (foreign-procedure "vector_set" (scheme-object iptr scheme-object) void))
(define set-car-by-c! (foreign-procedure "set_car" (scheme-object scheme-object) void))
(define set-cdr-by-c! (foreign-procedure "set_cdr" (scheme-object scheme-object) void))
(define set-box-by-c! (foreign-procedure "set_box" (scheme-object scheme-object) void))
(define set-symbol-by-c! (foreign-procedure "set_symbol" (scheme-object scheme-object) void))
(define address-ref (foreign-procedure "address_ref" (int) scheme-object))
(define address-set! (foreign-procedure "address_set" (int scheme-object) void))

;;; A kind of holder: how one of so many fields is made, and how a field is read and set. Fields hold #f at first.
(define-record-type kind (fields make load store!))

(define (build-vector count make)
  (let ([made (make-vector count #f)])
    (do ([place 0 (+ place 1)]) ((= place count) made) (vector-set! made place (make)))))

;;; Holders of four fields each, for kinds that have no others.
(define (in-parts make load store!)
  (make-kind
    (lambda (fields) (build-vector (quotient (+ fields 3) 4) make))
    (lambda (parts field) (load (vector-ref parts (quotient field 4)) (remainder field 4)))
    (lambda (parts field value) (store! (vector-ref parts (quotient field 4)) (remainder field 4) value))))

;;; Holders of one field each.
(define (in-cells make load store!)
  (make-kind
    (lambda (fields) (build-vector fields make))
    (lambda (cells field) (load (vector-ref cells field)))
    (lambda (cells field value) (store! (vector-ref cells field) value))))

;;; A new holder for each value.
(define (in-boxes make load)
  (make-kind
    (lambda (fields) (make-vector fields #f))
    (lambda (boxes field) (let ([box (vector-ref boxes field)]) (and box (load box))))
    (lambda (boxes field value) (vector-set! boxes field (and value (make value))))))

(define vectors-by-c
  (make-kind (lambda (fields) (make-vector fields #f)) vector-ref vector-set-by-c!))

;;; A vector is set, exchanged, filled while it is young, or copied.
(define vectors
  (make-kind
    (lambda (fields) (box (make-vector fields #f)))
    (lambda (holder field) (vector-ref (unbox holder) field))
    (lambda (holder field value)
      (let ([all (unbox holder)])
        (case (remainder field 4)
          [(0 1) (vector-set! all field value)]
          [(2) (let retry () (unless (vector-cas! all field (vector-ref all field) value) (retry)))]
          [else
           (let ([copy (vector-copy all)])
             (vector-set! copy field value)
             (set-box! holder copy))])))))

(define immutable-vectors
  (make-kind
    (lambda (fields) (box (vector->immutable-vector (make-vector fields #f))))
    (lambda (holder field) (vector-ref (unbox holder) field))
    (lambda (holder field value)
      (let ([copy (vector-copy (unbox holder))])
        (vector-set! copy field value)
        (set-box! holder (vector->immutable-vector copy))))))

(define (in-pairs set-car!)
  (make-kind
    (lambda (fields) (make-list fields #f))
    (lambda (pairs field) (and (list-assuming-immutable? pairs) (list-ref pairs field)))
    (lambda (pairs field value) (set-car! (list-tail pairs field) value))))

;;; Values are in the cdr of pairs.
(define (in-cdrs set-cdr!)
  (in-cells (lambda () (cons 'cdr #f)) cdr set-cdr!))

(define boxes
  (in-cells (lambda () (box #f)) unbox
    (lambda (cell value) (let retry () (unless (box-cas! cell (unbox cell) value) (retry))))))

(define-record-type part (fields (mutable a) (mutable b) (mutable c) (mutable d)))
(define records
  (in-parts (lambda () (make-part #f #f #f #f))
    (lambda (part place)
      (case place [(0) (part-a part)] [(1) (part-b part)] [(2) (part-c part)] [else (part-d part)]))
    (lambda (part place value)
      (case place
        [(0) (part-a-set! part value)] [(1) (part-b-set! part value)] [(2) (part-c-set! part value)]
        [else (part-d-set! part value)]))))

;;; Each holder has a type of its own, with a word that is no reference before the value.
(define typed-records
  (in-cells
    (lambda ()
      (let ([type (make-record-type "typed" '((mutable uptr word) (mutable scheme-object value)))])
        (vector ((record-constructor type) 7 #f) (record-accessor type 1) (record-mutator type 1))))
    (lambda (cell) ((vector-ref cell 1) (vector-ref cell 0)))
    (lambda (cell value) ((vector-ref cell 2) (vector-ref cell 0) value))))

;;; Variables that two closures share.
(define closures
  (in-parts
    (lambda ()
      (let ([a #f] [b #f] [c #f] [d #f])
        (cons
          (lambda (place) (case place [(0) a] [(1) b] [(2) c] [else d]))
          (lambda (place value)
            (case place [(0) (set! a value)] [(1) (set! b value)] [(2) (set! c value)] [else (set! d value)])))))
    (lambda (part place) ((car part) place))
    (lambda (part place value) ((cdr part) place value))))

(define constant-closures (in-boxes (lambda (value) (lambda () value)) (lambda (closure) (closure))))
(define weak-boxes
  (in-boxes (lambda (value) (weak-cons value (list value)))
    (lambda (pair) (let ([it (car pair)]) (if (bwp-object? it) #f it)))))

;;; Variables on the stack of a continuation. It is given a place, or a place and a value in a pair, and the
;;; continuation that takes the answer.
(define (make-coroutine)
  (let ([answer #f] [again #f])
    (define (wait result)
      (call/1cc (lambda (resumed) (set! again resumed) (answer result))))
    (define (body)
      (let loop ([a #f] [b #f] [c #f] [d #f] [asked (wait #f)])
        (if (pair? asked)
            (let ([place (car asked)] [value (cdr asked)])
              (let ([next (wait #f)])
                (case place
                  [(0) (loop value b c d next)] [(1) (loop a value c d next)] [(2) (loop a b value d next)]
                  [else (loop a b c value next)])))
            (let ([next (wait (case asked [(0) a] [(1) b] [(2) c] [else d]))])
              (loop a b c d next)))))
    (define (ask asked)
      (call/cc (lambda (return) (set! answer return) (again asked))))
    (call/cc (lambda (return) (set! answer return) (body)))
    ask))
(define coroutines
  (in-parts make-coroutine
    (lambda (part place) (part place))
    (lambda (part place value) (part (cons place value)))))

;;; Hash tables by the addresses of keys, which move. Keys are kept alive by a vector.
(define (in-tables make)
  (make-kind
    (lambda (fields) (cons (make) (build-vector fields (lambda () (list 'key)))))
    (lambda (holder field) (eq-hashtable-ref (car holder) (vector-ref (cdr holder) field) #f))
    (lambda (holder field value) (eq-hashtable-set! (car holder) (vector-ref (cdr holder) field) value))))

;;; Values are keys. Each table has one entry.
(define keys
  (in-cells make-eq-hashtable
    (lambda (table)
      (let ([all (hashtable-keys table)])
        (and (positive? (vector-length all))
          (let ([key (vector-ref all 0)]) (and (eq-hashtable-contains? table key) key)))))
    (lambda (table value)
      (hashtable-clear! table)
      (when value (eq-hashtable-set! table value #t)))))

;;; Values are behind keys that are kept alive, in pairs.
(define ephemerons
  (in-cells (lambda () (let ([key (list 'key)]) (cons key (ephemeron-cons key #f))))
    (lambda (cell) (cddr cell))
    (lambda (cell value) (set-cdr! (cdr cell) value))))

;;; A value is behind a key that is itself the value of another pair, and is reached after it was looked for, as what
;;; else is behind the same key.
(define ephemeron-chains
  (in-cells
    (lambda ()
      (let ([first (list 'first)] [second (list 'second)])
        (vector (ephemeron-cons first second) (ephemeron-cons second #f) first (ephemeron-cons second 'other))))
    (lambda (cell) (cdr (vector-ref cell 1)))
    (lambda (cell value) (set-cdr! (vector-ref cell 1) value))))

;;; Values are read from the weak part of a pair, and kept alive by its other part.
(define weak-pairs
  (in-cells (lambda () (weak-cons #f #f))
    (lambda (cell) (let ([it (car cell)]) (if (bwp-object? it) 'broken it)))
    (lambda (cell value) (set-car! cell value) (set-cdr! cell value))))

;;; Values are read from what a guardian gives back, in any order, so the last is known by its number. The guardian gets
;;; other objects too, which live longer.
(define (in-guardians make)
  (in-cells (lambda () (vector (make) #f (list 'other) 0))
    (lambda (cell)
      (let loop ([back ((vector-ref cell 0))])
        (when back
          (when (and (vector? back) (= (vector-ref back 1) (vector-ref cell 3)))
            (vector-set! cell 1 (vector-ref back 0)))
          (loop ((vector-ref cell 0)))))
      (vector-ref cell 1))
    (lambda (cell value)
      (vector-set! cell 1 value)
      (vector-set! cell 3 (+ (vector-ref cell 3) 1))
      ((vector-ref cell 0) (vector-ref cell 2))
      ((vector-ref cell 0) (vector value (vector-ref cell 3))))))
(define guarded (in-guardians make-guardian))
(define guarded-in-order (in-guardians (lambda () (make-guardian #t))))

(define symbols
  (in-cells gensym
    (lambda (symbol) (and (top-level-bound? symbol) (top-level-value symbol)))
    (lambda (symbol value) (set-top-level-value! symbol value))))
(define symbols-by-c
  (in-cells gensym
    (lambda (symbol) (and (top-level-bound? symbol) (top-level-value symbol)))
    set-symbol-by-c!))
(define properties
  (in-cells gensym
    (lambda (symbol) (getprop symbol 'field #f))
    (lambda (symbol value) (putprop symbol 'field value))))

(define stencils
  (in-parts (lambda () (stencil-vector 15 #f #f #f #f)) stencil-vector-ref stencil-vector-set!))

;;; References among bytes.
(define bytes
  (make-kind
    (lambda (fields)
      (let ([made (make-reference-bytevector (* 8 (max fields 1)))])
        (do ([field 0 (+ field 1)]) ((= field fields) made)
          (bytevector-reference-set! made (* 8 field) #f))))
    (lambda (made field) (bytevector-reference-ref made (* 8 field)))
    (lambda (made field value) (bytevector-reference-set! made (* 8 field) value))))

(define wrappers
  (in-cells (lambda () (make-wrapper-procedure (lambda () #f) 1 #f))
    wrapper-procedure-data set-wrapper-procedure-data!))

;;; Vectors that never move.
(define immobiles
  (make-kind (lambda (fields) (make-immobile-vector fields #f)) vector-ref vector-set!))

;;; A constant of code, which is compiled for each value.
(define codes
  (in-boxes (lambda (value) (compile `(lambda () ',value))) (lambda (code) (code))))

(define (make-long-code)
  (compile `(lambda (take) ,@(map (lambda (place) `(take ',(list place))) (iota 900)))))
(define long-code #f)

(define parameters
  (in-cells (lambda () (make-thread-parameter #f)) (lambda (cell) (cell)) (lambda (cell value) (cell value))))

;;; Records of so many fields, with a word that is no reference among them. Four of the fields are read and set.
(define (make-long-type count)
  (define (field place) (if (= place 6) '(mutable uptr word) '(mutable scheme-object value)))
  (let* ([type (make-record-type "long" (map field (iota count)))] [places (list 0 1 (- count 2) (- count 1))])
    (vector (record-constructor type) (map (lambda (place) (if (= place 6) 7 #f)) (iota count))
      (map (lambda (place) (record-accessor type place)) places)
      (map (lambda (place) (record-mutator type place)) places))))
(define (make-long type) (apply (vector-ref type 0) (vector-ref type 1)))
(define (long-ref type long place) ((list-ref (vector-ref type 2) place) long))
(define (long-set! type long place value) ((list-ref (vector-ref type 3) place) long value))

;;; Their references are told by a bignum.
(define wide-type (make-long-type 100))
(define wide-records
  (in-parts (lambda () (make-long wide-type))
    (lambda (part place) (long-ref wide-type part place))
    (lambda (part place value) (long-set! wide-type part place value))))

;;; The same, told by a small number.
(define mixed-type (make-long-type 9))
(define mixed-records
  (in-parts (lambda () (make-long mixed-type))
    (lambda (part place) (long-ref mixed-type part place))
    (lambda (part place value) (long-set! mixed-type part place value))))

;;; They are longer than a segment of the heap. The type is made late, as that takes long.
(define long-type #f)
(define long-records
  (in-parts
    (lambda ()
      (unless long-type (set! long-type (make-long-type 2600)))
      (make-long long-type))
    (lambda (part place) (long-ref long-type part place))
    (lambda (part place value) (long-set! long-type part place value))))

;;; A value is one of sixty-six variables of a procedure that waits, whose continuation is kept.
(define (hold place value) (if (= place 50) value place))
(define (make-waiter)
  (let ([names (map (lambda (place) (gensym)) (iota 66))])
    (eval
      `(lambda (value pause)
         (let ,(map (lambda (name place) `[,name (hold ,place value)]) names (iota 66))
           (let ([back (pause)]) (back (list ,@names))))))))
(define waiter #f)
(define (wait-in-wide-frame value pause)
  (unless waiter (set! waiter (make-waiter)))
  (waiter value pause))
(define (make-frame value)
  (call/cc (lambda (made) (wait-in-wide-frame value (lambda () (call/cc made))))))
(define (frame-value frame)
  (let* ([all (call/cc frame)] [value (list-ref all 50)])
    (unless (equal? (map (lambda (place) (hold place value)) (iota 66)) all)
      (error 'read "a frame has other variables"))
    value))
(define frames (in-boxes make-frame frame-value))

;;; The value is the name of a port, which keeps its buffers.
(define (make-named-port value)
  (let ([port (make-input/output-port (lambda all #f) (make-string 3 #\i) (make-string 4 #\o))])
    (set-port-name! port value)
    port))
(define (port-value port)
  (unless (and (string=? (textual-port-input-buffer port) "iii") (string=? (textual-port-output-buffer port) "oooo"))
    (error 'read "a port has other buffers"))
  (port-name port))
(define ports (in-cells (lambda () (make-named-port #f)) port-value set-port-name!))

;;; Weak pairs aren't among those for many fields, and where all is marked in place there are none: the collector of
;;; Racket CS 8.7 crashes if it marks many in place.
(define many-fields
  (vector vectors vectors-by-c (in-tables make-eq-hashtable) bytes ephemerons))
(define weak-tables (in-tables make-weak-eq-hashtable))
(define few-fields
  (vector vectors vectors-by-c (in-pairs set-car!) (in-pairs set-car-by-c!) (in-cdrs set-cdr!) (in-cdrs set-cdr-by-c!)
    boxes (in-cells (lambda () (box #f)) unbox set-box-by-c!) records typed-records closures constant-closures
    coroutines
    (in-tables make-eq-hashtable) weak-tables (in-tables make-ephemeron-eq-hashtable)
    keys ephemerons ephemeron-chains weak-pairs guarded guarded-in-order symbols symbols-by-c properties
    stencils bytes wrappers immobiles parameters
    immutable-vectors weak-boxes ports))
(define weak-kinds (list weak-pairs weak-boxes weak-tables keys))
(define (leave-out-weak-kinds)
  (set! few-fields
    (list->vector (remp (lambda (kind) (memq kind weak-kinds)) (vector->list few-fields)))))
(define most-few-fields 48)

;;; Numbers are objects of thirteen kinds, in turn.
(define great (expt 2 64))
(define number-kinds 13)
(define (high number) (quotient number (expt 2 32)))
(define (low number) (remainder number (expt 2 32)))
(define (from-halves high low) (+ (* (exact high) (expt 2 32)) (exact low)))

;;; The last kind has both halves within the third object of a vector.
(define (number->object kind number)
  (case kind
    [(0) (+ number great)]
    [(1) (+ number (expt great 5))]
    [(2) (/ (+ number great) (expt 3 50))]
    [(3) (make-rectangular (+ number great) (+ number great))]
    [(4) (number->string (+ number great))]
    [(5) (string->symbol (number->string number))]
    [(6) (let ([bytes (make-bytevector 24 0)]) (bytevector-u64-native-set! bytes 8 number) bytes)]
    [(7) (fxvector (high number) (low number))]
    [(8) (fl-make-rectangular (inexact (high number)) (inexact (low number)))]
    [(9) (cons (inexact (high number)) (inexact (low number)))]
    [(10) (flvector (inexact (high number)) (inexact (low number)))]
    [(11) (make-phantom-bytevector number)]
    [else
     (let ([halves (fl-make-rectangular (inexact (high number)) (inexact (low number)))])
       (vector (cfl-real-part halves) (cfl-imag-part halves) halves))]))

;;; Some numbers are longer than two segments of the heap.
(define very-great (expt 2 272000))
(define (number->long-object kind number)
  (case kind
    [(0) (+ number very-great)]
    [(1) (string-append (number->string (+ number great)) (make-string 8500 #\space))]
    [(2) (let ([bytes (make-bytevector 34000 0)]) (bytevector-u64-native-set! bytes 8 number) bytes)]
    [(3)
     (let ([halves (make-fxvector 4300 (low number))])
       (fxvector-set! halves 0 (high number))
       halves)]
    [else
     (let ([halves (make-flvector 4300 (inexact (low number)))])
       (flvector-set! halves 0 (inexact (high number)))
       halves)]))

(define (whole-number object)
  (let ([number (from-halves (vector-ref object 0) (vector-ref object 1))])
    (unless (= number (object->number (vector-ref object 2)))
      (error 'read "a number isn't that within another object"))
    number))

(define (object->number object)
  (cond
    [(not object) 0]
    [(string? object) (- (string->number (substring object 0 20)) great)]
    [(symbol? object) (string->number (symbol->string object))]
    [(bytevector? object) (bytevector-u64-native-ref object 8)]
    [(fxvector? object) (from-halves (fxvector-ref object 0) (fxvector-ref object (- (fxvector-length object) 1)))]
    [(flvector? object) (from-halves (flvector-ref object 0) (flvector-ref object (- (flvector-length object) 1)))]
    [(pair? object) (from-halves (car object) (cdr object))]
    [(vector? object) (whole-number object)]
    [(phantom-bytevector? object) (phantom-bytevector-length object)]
    [(cflonum? object) (from-halves (cfl-real-part object) (cfl-imag-part object))]
    [(not (real? object)) (- (real-part object) great)]
    [(ratnum? object) (- (* object (expt 3 50)) great)]
    [else (remainder object great)]))

;;; Phantoms count as memory, so they are for small numbers.
(define writes 0)
(define (new-number number)
  (set! writes (+ writes 1))
  (let ([kind (remainder writes number-kinds)])
    (cond
      [(zero? (remainder writes 250)) (number->long-object (remainder (quotient writes 250) 5) number)]
      [(and (= kind 11) (> number 1000)) (number->object 12 number)]
      [else (number->object kind number)])))

;;; Numbers are fields from 0 on, and references lie behind them.
(define-record-type object (fields references numbers kind holder))

(define (choose-kind birth fields)
  (cond
    [(> fields most-few-fields) (vector-ref many-fields (remainder birth (vector-length many-fields)))]
    [(= (remainder birth 50) 49)
     (case (remainder (quotient birth 50) 4) [(0) frames] [(1) wide-records] [(2) codes] [else long-records])]
    [else (vector-ref few-fields (remainder birth (vector-length few-fields)))]))

(define (object-load object field)
  ((kind-load (object-kind object)) (object-holder object) field))

(define (object-store! object field value)
  ((kind-store! (object-kind object)) (object-holder object) field value))

;;; Roots of eight kinds, in turn. Each kind has a procedure to read a place and one to set it.
(define of-a-kind 18)
(define root-vector (make-vector of-a-kind #f))
(define root-boxes (build-vector of-a-kind (lambda () (box #f))))
(define root-parameters (build-vector of-a-kind (lambda () (make-thread-parameter #f))))
(define root-symbols (build-vector of-a-kind gensym))
(define root-variables ((kind-make closures) of-a-kind))
(define root-locals ((kind-make coroutines) of-a-kind))
(define root-records ((kind-make records) of-a-kind))

(define (root-ref root)
  (let ([place (quotient root 8)])
    (case (remainder root 8)
      [(0) (vector-ref root-vector place)]
      [(1) (address-ref place)]
      [(2) (unbox (vector-ref root-boxes place))]
      [(3) ((vector-ref root-parameters place))]
      [(4) (getprop (vector-ref root-symbols place) 'root #f)]
      [(5) ((kind-load closures) root-variables place)]
      [(6) ((kind-load coroutines) root-locals place)]
      [else ((kind-load records) root-records place)])))

(define (root-set! root value)
  (let ([place (quotient root 8)])
    (case (remainder root 8)
      [(0) (vector-set! root-vector place value)]
      [(1) (address-set! place value)]
      [(2) (set-box! (vector-ref root-boxes place) value)]
      [(3) ((vector-ref root-parameters place) value)]
      [(4) (putprop (vector-ref root-symbols place) 'root value)]
      [(5) ((kind-store! closures) root-variables place value)]
      [(6) ((kind-store! coroutines) root-locals place value)]
      [else ((kind-store! records) root-records place value)])))

;;; What the adapter in C calls.
;;; How many objects were made since the script began.
(define births 0)
(define (heap-begin)
  (set! births 0)
  (set! writes 0))

(define (heap-make root references numbers)
  (let* ([fields (+ references numbers)] [kind (choose-kind births fields)])
    (set! births (+ births 1))
    (root-set! root (make-object references numbers kind ((kind-make kind) fields)))))

(define (heap-references root)
  (let ([object (root-ref root)]) (and object (object-references object))))

(define (heap-numbers root)
  (object-numbers (root-ref root)))

(define (heap-get to from reference)
  (let ([object (root-ref from)])
    (root-set! to (object-load object (+ (object-numbers object) reference)))))

(define (heap-put to reference from)
  (let ([object (root-ref to)])
    (object-store! object (+ (object-numbers object) reference) (root-ref from))))

(define (heap-read root number)
  (object->number (object-load (root-ref root) number)))

(define (heap-write root number value)
  (object-store! (root-ref root) number (new-number value)))

(define (heap-copy to from) (root-set! to (root-ref from)))
(define (heap-clear root) (root-set! root #f))
(define (heap-same one other) (eq? (root-ref one) (root-ref other)))

(define (heap-collect)
  (set! watched #f)
  (collect (collect-maximum-generation) (collect-maximum-generation))
  (check-weak-objects))

;;; Objects of each kind that are locked for a while, or that a guardian alone keeps: how one is made that has a value,
;;; and how it is read and set. If it can't be set, values are small numbers.
(define-record-type piece (fields make load store!))

(define (number-piece kind)
  (make-piece (lambda (number) (number->object kind number)) object->number #f))

(define (cell-piece kind)
  (make-piece
    (lambda (value)
      (let ([cell (vector-ref ((kind-make kind) 1) 0)])
        ((kind-store! kind) (vector cell) 0 value)
        cell))
    (lambda (cell) ((kind-load kind) (vector cell) 0))
    (lambda (cell value) ((kind-store! kind) (vector cell) 0 value))))

;;; A procedure is the value of a symbol, a number is the name of code, and a frame keeps one variable.
(define (make-bound-symbol value)
  (let ([symbol (gensym)])
    (set-top-level-value! symbol (lambda () value))
    symbol))
(define (make-code value)
  (let ([name (string->symbol (format "n~a" value))])
    (#%$closure-code (compile `(let ([,name (lambda (take) (take ',(list value)) #f)]) ,name)))))
(define (code-value code)
  (let ([name (#%$code-name code)]) (string->number (substring name 1 (string-length name)))))
(define (make-narrow-frame value)
  (call/cc (lambda (made) (let ([back (call/cc made)]) (back value)))))

(define pieces
  (list->vector
    (append
      (map number-piece (iota 12))
      (map cell-piece (list (in-cdrs set-cdr!) boxes records symbols stencils wrappers ports))
      (list
        (make-piece (lambda (value) (cons value 'car)) car set-car!)
        (make-piece (lambda (value) (weak-cons root-vector value)) cdr set-cdr!)
        (make-piece (lambda (value) (ephemeron-cons root-vector value)) cdr set-cdr!)
        (make-piece (lambda (value) (make-vector 3 value))
          (lambda (object) (vector-ref object 2)) (lambda (object value) (vector-set! object 2 value)))
        (make-piece
          (lambda (value)
            (let ([made ((kind-make bytes) 1)])
              ((kind-store! bytes) made 0 value)
              made))
          (lambda (made) ((kind-load bytes) made 0)) (lambda (made value) ((kind-store! bytes) made 0 value)))
        (make-piece inexact exact #f)
        (make-piece (lambda (value) (lambda () value)) (lambda (closure) (closure)) #f)
        (make-piece make-frame frame-value #f)
        (make-piece make-narrow-frame (lambda (frame) (call/cc frame)) #f)
        (make-piece make-bound-symbol (lambda (symbol) ((top-level-value symbol))) #f)
        (make-piece make-code code-value #f)
        (cell-piece mixed-records)
        (cell-piece wide-records)))))

(define (piece-at number) (vector-ref pieces (remainder number (vector-length pieces))))
(define (value-of piece number)
  (let ([small (remainder number 1000)]) (if (piece-store! piece) (list small) small)))
(define (check-piece piece object value)
  (unless (equal? ((piece-load piece) object) value)
    (error 'litter "an object that was locked or guarded has another value")))

;;; What is locked: the piece, the object, and its value.
(define of-locked 8)
(define locked (make-vector of-locked #f))

(define (lock-piece number)
  (let* ([place (remainder number of-locked)] [old (vector-ref locked place)]
         [piece (piece-at number)] [value (value-of piece number)] [object ((piece-make piece) value)])
    (lock-object object)
    (vector-set! locked place (vector piece object value))
    (when old
      (check-piece (vector-ref old 0) (vector-ref old 1) (vector-ref old 2))
      (unlock-object (vector-ref old 1)))))

(define (write-locked number)
  (let ([it (vector-ref locked (remainder number of-locked))])
    (when (and it (piece-store! (vector-ref it 0)))
      (vector-set! it 2 (value-of (vector-ref it 0) number))
      ((piece-store! (vector-ref it 0)) (vector-ref it 1) (vector-ref it 2)))))

;;; A guardian that keeps order for each piece, and one of objects that lead to themselves, of which it gives back those
;;; alone that do so by an ephemeron. None gets a record of the last kind: the collector of Racket CS 8.7 crashes if it
;;; comes upon one that is behind such a guardian and not copied, and has copied its type.
(define of-guarded (- (vector-length pieces) 1))
(define losers (build-vector of-guarded (lambda () (make-guardian #t))))
(define knots (make-guardian #t))

(define (lose-piece number)
  (let* ([place (remainder number of-guarded)] [piece (vector-ref pieces place)]
         [loser (vector-ref losers place)] [value (value-of piece place)])
    (do ([back (loser) (loser)]) ((not back)) (check-piece piece back value))
    (loser ((piece-make piece) value))
    (when (piece-store! piece)
      (let ([knot ((piece-make piece) #f)])
        ((piece-store! piece) knot knot)
        (knots knot)))
    (unless (let ([back (knots)]) (or (not back) (ephemeron-pair? back)))
      (error 'litter "a guardian that keeps order gives back what leads to itself"))
    (when (zero? place) (set! knots (make-guardian #t)))))

;;; An ephemeron whose key is gone. A guardian that alone keeps another one, which alone keeps an object. And a guardian
;;; of objects that live from one command to the next, which are counted.
(define stale (ephemeron-cons #f #f))
(define chain (make-guardian))
(define watcher (make-guardian))
(define watched #f)
(define count-watched 0)

(define (drop-weak-objects)
  (let ([outer (chain)])
    (when (and outer (not (member ((vector-ref outer 0)) '(#f (inner)))))
      (error 'litter "a guardian gives back what it never had")))
  (set! stale (ephemeron-cons (list 'key) (list 'value)))
  (let ([inner (make-guardian)])
    (inner (list 'inner))
    (chain (vector inner)))
  (set! watched (list 'watched))
  (watcher watched)
  (set! count-watched (+ count-watched 1)))

;;; Says that a guardian has lost or kept something, or that an ephemeron hasn't noticed that its key is gone.
(define (check-weak-objects)
  (do () ((not (watcher))) (set! count-watched (- count-watched 1)))
  (unless (zero? count-watched)
    (error 'collect "a guardian doesn't give back what is gone"))
  (when (pair? (car stale))
    (error 'collect "an ephemeron has a key that is gone")))

;;; Fills what a collection has freed.
(define (litter)
  (drop-weak-objects)
  (when (zero? (remainder steps 8))
    (lose-piece (quotient steps 8))
    (if (zero? (remainder steps 32)) (lock-piece (quotient steps 32)) (write-locked (quotient steps 8))))
  (do ([count 0 (+ count 1)]) ((= count 8))
    (make-vector 1000 'litter)
    (make-phantom-bytevector 100)
    (cons 'litter (make-string 100 #\l))))

;;; Asks the collector what is there and how large it is, which it finds by collecting.
(define (measure)
  (object-counts)
  (object-backreferences)
  (compute-size-increments (list root-vector root-boxes locked))
  (collect 0 1 1 (list root-vector (weak-cons root-boxes '()))))

;;; Counts objects in two collections, and no longer in those that come then.
(define (count-briefly)
  (enable-object-backreferences #f)
  (enable-object-counts #t)
  (collect 0 1)
  (collect 1 2)
  (enable-object-counts #f)
  (collect 0 1)
  (collect 1 2))

;;; Collects within a wide frame, while a continuation has an attachment.
(define (collect-attached generation target)
  (let ([attachment (list generation)])
    (#%$call-setting-continuation-attachment attachment
      (lambda ()
        (let ([all (wait-in-wide-frame attachment (lambda () (collect generation target) values))])
          (unless (and (eq? (list-ref all 50) attachment) (eq? (car (#%$current-attachments)) attachment))
            (error 'collect "a continuation has another attachment")))))))

;;; How the collector works after a command, by the name of the mode.
(define generation 0)
(define steps 0)
(define between-checks 200)

(define (heap-step mode)
  (set! steps (+ steps 1))
  (case mode
    [(young) (if (zero? (remainder steps 64)) (collect-attached 0 1) (collect 0 1))]
    [(generations) (collect)]
    [(marking)
     (collect)
     (when (and (zero? (remainder steps between-checks)) (not long-code))
       (set! long-code (make-long-code)))]
    [(staying) (if (zero? (remainder steps 64)) (collect-attached 0 0) (collect 0 0))]
    [(climbing)
     (collect generation (+ generation 1))
     (set! generation (remainder (+ generation 1) (collect-maximum-generation)))]
    [(counted)
     (collect)
     (when (zero? (remainder steps between-checks))
       (measure)
       (count-briefly)
       (enable-object-counts #t)
       (enable-object-backreferences #t))]
    [(checked)
     (#%$enable-check-heap (zero? (remainder steps between-checks)))
     (collect)
     (#%$enable-check-heap #f)]
    [else (void)])
  (litter))

(define (heap-open mode)
  (base-exception-handler
    (lambda (condition)
      (display "adapter: " (console-error-port))
      (display-condition condition (console-error-port))
      (newline (console-error-port))
      (flush-output-port (console-error-port))
      (exit 3)))
  (case mode
    [(automatic) (collect-trip-bytes 65536)]
    [else (collect-request-handler void)])
  (case mode
    [(marking)
     (leave-out-weak-kinds)
     (in-place-minimum-generation 1)]
    [(counted) (enable-object-counts #t) (enable-object-backreferences #t)]
    [else (void)]))
