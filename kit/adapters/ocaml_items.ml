(* The objects of the adapter for OCaml. Each keeps its references in one of the ways that a program of OCaml has, in
   turn by its birth. Each way has barriers of its own, or is marked by code of its own. What is loaded and stored
   doesn't depend on it.

   What is weak stands beside what is strong: a weak array whose values are kept elsewhere, an ephemeron whose key is
   the object itself, a body that a finalizer resurrects for as long as its object lives. What is cleared too soon reads
   as null. *)

open Bigarray

type item = {
  count : int;
  birth : int;
  numbers : numbers;
  (* Objects of even births have two references in themselves. *)
  mutable first : item;
  mutable second : item;
  mutable rest : rest;
}

and numbers =
  | Boxes of int64 array
  | Foreign of (int64, int64_elt, c_layout) Array1.t
  | Bytes of Bytes.t
  | Floats of float array
  | Delayed of float Lazy.t array

and rest =
  | Nothing
  | Plain of { mutable fields : item array }
  | Closures of (item -> item) array
  | Thunks of (unit -> item) array
  | Lazies of item Lazy.t array
  | Nested of item Lazy.t Lazy.t array
  | Fresh of item ref Lazy.t array
  | Exceptions of exn array
  | Watched of { values : item array; beside : item Weak.t }
  | Keyed of keyed
  | Resurrected of body Weak.t
  | Guarded of { guarded : item array; is_alive : bool ref }
  | Foreign_block of item array

and keyed = { outer : Obj.Ephemeron.t; middle : Obj.Ephemeron.t; ephemeron : Obj.Ephemeron.t }

(* What a finalizer keeps, in the script that made it. *)
and body = { owner : item Weak.t; script : int; held : item array }

exception Held of item

external foreign_block : int -> item -> item array = "adapter_block"
external foreign_store : item array -> int -> item -> unit = "adapter_store" [@@noalloc]

(* Null is an object too, so that no reference is boxed. Closures are asked by others. *)
let rec null = { count = 0; birth = 0; numbers = Boxes [||]; first = null; second = null; rest = Nothing }
let ask_second = { count = 0; birth = 0; numbers = Boxes [||]; first = null; second = null; rest = Nothing }
let ask = { count = 0; birth = 0; numbers = Boxes [||]; first = null; second = null; rest = Nothing }

(* Of so many words an object may be young; arrays of up to so many are copied as they are written. *)
let most_young = 256
let most_copied = 4096
(* Of so many references each may be in an object of its own. *)
let most_apart = 512
(* So many finalizers may be registered. *)
let most_kept = 64
let kinds = 15
(* The C library writes so many words into a block that is freed, where addresses differ from run to run. *)
let unused = 4

let births = ref 0
let script = ref 0
let kept = ref 0

let begin_anew () =
  births := 0;
  kept := 0;
  incr script

(* Large arrays are copies, whose fields lead to values that are younger than they. *)
let made size value =
  let values = Array.init size value in
  if size > most_young && size <= most_copied then Array.copy values else values

(* Two functions of one block: what leads to the second leads into the block. Each is asked by another object. *)
let closure field value =
  let holder = ref value in
  let rec first item = if item == ask then !holder else if item == ask_second then null else second item
  and second item = if item == ask_second then first ask else if item == ask then null else (holder := item; item) in
  if field mod 2 = 0 then second else first

let asked functions at = functions.(at) (if at mod 2 = 0 then ask_second else ask)

let delayed field value =
  match field mod 3 with
  | 0 -> lazy (Sys.opaque_identity value)
  | 1 -> let it = lazy (Sys.opaque_identity value) in ignore (Lazy.force it); it
  | _ -> Lazy.from_val value

(* A value that is forced too soon, since the collector led past the one that has it, is null. *)
let may_force = ref true

let nested field value =
  let inner = if field mod 3 = 0 then lazy (if !may_force then value else null) else delayed field value in
  if field mod 4 = 3 then Lazy.from_val inner
  else begin
    let outer = lazy (Sys.opaque_identity inner) in
    if field mod 2 = 0 then ignore (Lazy.force outer);
    outer
  end

(* What it gives is younger than itself, if it was old as it was asked first. *)
let fresh value = lazy (ref (Sys.opaque_identity value))

(* The last fields are cut off, and some of them are young. *)
let truncated size =
  let fields = Array.make (size + 2) null in
  fields.(size) <- { null with count = size };
  (Obj.truncate [@ocaml.warning "-3"]) (Obj.repr fields) size;
  fields

(* The last ephemerons, and the data of each second one. They are led to from here too, so some are marked before their
   keys, and some data is copied before they are looked at. *)
let recent = Array.make 16 None

(* Data is delayed, so that it is a block that the collector leads past, and then the array itself. *)
let set_data ephemeron data = Obj.Ephemeron.set_data ephemeron (Obj.repr (data : item array Lazy.t))

let keyed_by key =
  let ephemeron = Obj.Ephemeron.create 1 in
  Obj.Ephemeron.set_key ephemeron 0 key;
  ephemeron

(* The data of one ephemeron is the key of the next, so that they are looked at several times. *)
let keyed item values =
  let cell = Obj.repr (ref 0) and other_cell = Obj.repr (ref 0) in
  let outer = keyed_by (Obj.repr item) and middle = keyed_by cell and ephemeron = keyed_by other_cell in
  Obj.Ephemeron.set_data outer cell;
  Obj.Ephemeron.set_data middle other_cell;
  set_data ephemeron (Lazy.from_val values);
  recent.(!births mod Array.length recent) <- Some (ephemeron, if !births mod 2 = 0 then values else [||]);
  { outer; middle; ephemeron }

let rec resurrect body =
  if body.script = !script && Weak.check body.owner 0 then Gc.finalise resurrect body
  else if body.script = !script then decr kept

let resurrected item size =
  let owner = Weak.create 1 and found = Weak.create 1 in
  let body = { owner; script = !script; held = Array.make size null } in
  Weak.set owner 0 (Some item);
  Weak.set found 0 (Some body);
  incr kept;
  Gc.finalise resurrect body;
  found

let guarded size =
  let guarded = Array.make size null and is_alive = ref true in
  Gc.finalise_last (fun () -> is_alive := false) guarded;
  Guarded { guarded; is_alive }

(* Large objects have no object for each of their references. *)
let rest_of birth item size =
  match birth mod kinds with
  | 1 | 2 | 6 | 9 | 11 | 12 when size > most_apart -> Plain { fields = Array.make size null }
  | 1 -> Closures (made size (fun field -> closure field null))
  | 2 -> Lazies (made size (fun field -> delayed field null))
  | 3 -> Watched { values = Array.make size null; beside = Weak.create size }
  | 4 -> Keyed (keyed item (Array.make size null))
  | 5 -> Plain { fields = truncated size }
  | 6 -> Exceptions (made size (fun _ -> Held (Sys.opaque_identity null)))
  | 7 when !kept < most_kept -> Resurrected (resurrected item size)
  | 8 -> Foreign_block (foreign_block size null)
  | 9 -> Nested (made size (fun field -> nested field null))
  | 10 -> guarded size
  | 11 -> Thunks (made size (fun _ -> let value = Sys.opaque_identity null in fun () -> value))
  | 12 -> Fresh (made size (fun _ -> fresh null))
  | _ -> Plain { fields = Array.make size null }

let delayed_number value = lazy (Sys.opaque_identity (Int64.float_of_bits value))

let numbers_of birth count =
  match birth mod 8 with
  | 1 ->
    let numbers = Array1.create int64 c_layout (count + unused) in
    Array1.fill numbers 0L;
    Foreign numbers
  | 3 -> Bytes (Bytes.make (8 * count) '\000')
  | 5 -> Floats (Array.make count 0.0)
  | 7 when count <= most_apart -> Delayed (made count (fun _ -> delayed_number 0L))
  | 7 -> Floats (Array.make count 0.0)
  (* Each number is a box of its own. *)
  | _ -> Boxes (made count (fun _ -> Int64.of_string "0"))

let inline item = if item.birth mod 2 = 0 then 2 else 0

(* The ways to store take turns by the field, and begin elsewhere in each object. *)
let way item at = (at + item.birth / 2) mod 16

let make references numbers =
  let birth = !births in
  let numbers = numbers_of birth numbers in
  let item = { count = references; birth; numbers; first = null; second = null; rest = Nothing } in
  incr births;
  if references > inline item then item.rest <- rest_of birth item (references - inline item);
  item

let number_count item =
  match item.numbers with
  | Boxes numbers -> Array.length numbers
  | Foreign numbers -> Array1.dim numbers - unused
  | Bytes numbers -> Bytes.length numbers / 8
  | Floats numbers -> Array.length numbers
  | Delayed numbers -> Array.length numbers

let read item number =
  match item.numbers with
  | Boxes numbers -> numbers.(number)
  | Foreign numbers -> numbers.{number + unused}
  | Bytes numbers -> Bytes.get_int64_ne numbers (8 * number)
  | Floats numbers -> Int64.bits_of_float numbers.(number)
  | Delayed numbers -> Int64.bits_of_float (Lazy.force numbers.(number))

let write item number value =
  match item.numbers with
  | Boxes numbers -> numbers.(number) <- value
  | Foreign numbers -> numbers.{number + unused} <- value
  | Bytes numbers -> Bytes.set_int64_ne numbers (8 * number) value
  | Floats numbers -> numbers.(number) <- Int64.float_of_bits value
  | Delayed numbers -> numbers.(number) <- delayed_number value

let thrown = function
  | Held item -> item
  | _ -> null

let forced = function
  | Some data -> Lazy.force (Obj.obj data : item array Lazy.t)
  | None -> [||]

let data_of ephemeron = forced (Obj.Ephemeron.get_data ephemeron)

(* The field of what an ephemeron keeps, or of a copy of that. *)
let load_keyed ephemeron at =
  let values = if at mod 3 = 2 then forced (Obj.Ephemeron.get_data_copy ephemeron) else data_of ephemeron in
  if at < Array.length values then values.(at) else null

(* What a weak array has, unless a copy of it is another object's. *)
let load_watched beside at =
  match Weak.get beside at, if at mod 4 = 3 then Weak.get_copy beside at else None with
  | Some item, Some copy -> if copy.count = item.count && copy.first == item.first then item else null
  | Some item, None -> item
  | None, _ -> null

let load_nested values at =
  may_force := false;
  let inner = Lazy.force values.(at) in
  may_force := true;
  Lazy.force inner

let load_from_rest rest at =
  match rest with
  | Nothing -> null
  | Plain { fields } -> fields.(at)
  | Closures functions -> asked functions at
  | Thunks functions -> functions.(at) ()
  | Lazies values -> Lazy.force values.(at)
  | Nested values -> load_nested values at
  | Exceptions exceptions when at mod 2 = 0 -> thrown exceptions.(at)
  | Exceptions exceptions -> (try raise exceptions.(at) with it -> thrown it)
  | Fresh values -> !(Lazy.force values.(at))
  | Watched { beside; _ } -> load_watched beside at
  | Keyed { ephemeron; _ } -> load_keyed ephemeron at
  | Resurrected found -> (match Weak.get found 0 with Some body -> body.held.(at) | None -> null)
  | Guarded { guarded; is_alive } -> if !is_alive then guarded.(at) else null
  | Foreign_block fields -> fields.(at)

(* Moves three fields so that the one amid them is the value and the others are as before. *)
let moved_up fields at value =
  let before = fields.(at - 1) in
  fields.(at - 1) <- value;
  fields.(at) <- fields.(at + 1);
  Array.blit fields (at - 1) fields at 2;
  fields.(at - 1) <- before

let moved_down fields at value =
  let behind = fields.(at + 1) in
  fields.(at) <- fields.(at - 1);
  fields.(at + 1) <- value;
  Array.blit fields at fields (at - 1) 2;
  fields.(at + 1) <- behind

let moved fields at value =
  if at = 0 || at + 1 = Array.length fields then fields.(at) <- value
  else if at mod 32 < 16 then moved_up fields at value
  else moved_down fields at value

(* Fills an array with the value, and then brings back what it had. *)
let filled fields at value =
  let before = Array.copy fields in
  Array.fill fields 0 (Array.length fields) value;
  Array.blit before 0 fields 0 at;
  Array.blit before (at + 1) fields (at + 1) (Array.length fields - at - 1)

(* Stores into an array in one of the ways that there are. *)
let assign way fields at value =
  match way with
  | 9 when Array.length fields > most_young && Array.length fields <= most_copied -> filled fields at value
  | 1 | 5 | 9 | 13 -> Array.fill fields at 1 value
  | 2 | 6 | 10 | 14 -> Array.blit [| value |] 0 fields at 1
  | 4 -> Obj.set_field (Obj.repr fields) at (Obj.repr value)
  | 12 -> moved fields at value
  | _ -> fields.(at) <- value

(* Copies that are made of an array with the value, or of the value and the parts beside it. *)
let copied fields at value =
  fields.(at) <- value;
  if at mod 2 = 0 then Array.copy fields else Obj.obj (Obj.dup (Obj.repr fields))

let joined fields at value =
  let behind = Array.sub fields (at + 1) (Array.length fields - at - 1) in
  Array.append (Array.append (Array.sub fields 0 at) [| value |]) behind

(* More parts than the runtime has room for on its stack. *)
let concatenated fields at value =
  let behind = Array.sub fields (at + 1) (Array.length fields - at - 1) in
  let nothing = List.init (if at mod 2 = 0 then 0 else 20) (fun _ -> [||]) in
  Array.concat ((Array.sub fields 0 at :: nothing) @ [ [| value |]; behind ])

(* Stores into an array, or into a copy that takes its place. *)
let stored way fields at value =
  let may_copy = Array.length fields <= most_copied in
  match way with
  | 3 | 11 when may_copy -> copied fields at value
  | 7 when may_copy -> joined fields at value
  | 15 when may_copy -> concatenated fields at value
  | _ -> assign way fields at value; fields

let store_closure way functions at value =
  if at mod 4 < 2 then assign way functions at (closure at value) else ignore (functions.(at) value)

let store_watched way values beside at value =
  let seen = if value == null then None else Some value in
  assign way values at value;
  if at mod 2 = 0 then Weak.set beside at seen
  else begin
    let other = Weak.create 1 in
    Weak.set other 0 seen;
    Weak.blit other 0 beside at 1
  end

(* Gives an object another ephemeron with the data of the first, in which a field has another value. *)
let store_keyed item ephemeron at value =
  let values = data_of ephemeron in
  match at mod 3 with
  | 0 -> assign (way item at) values at value
  | 1 ->
    values.(at) <- value;
    Obj.Ephemeron.unset_data ephemeron;
    set_data ephemeron (lazy (Array.copy values))
  | _ ->
    let other = keyed item [||] in
    values.(at) <- value;
    Obj.Ephemeron.blit_data ephemeron other.ephemeron;
    item.rest <- Keyed other

let store_in_rest item at value =
  let way = way item at in
  match item.rest with
  | Nothing -> ()
  | Plain plain -> plain.fields <- stored way plain.fields at value
  | Closures functions -> store_closure way functions at value
  | Thunks functions -> assign way functions at (fun () -> value)
  | Lazies values -> assign way values at (delayed at value)
  | Nested values -> assign way values at (nested at value)
  | Fresh values when at mod 2 = 0 -> assign way values at (fresh value)
  | Fresh values -> Lazy.force values.(at) := value
  | Exceptions exceptions -> assign way exceptions at (Held value)
  | Watched { values; beside } -> store_watched way values beside at value
  | Keyed { ephemeron; _ } -> store_keyed item ephemeron at value
  | Resurrected found -> Option.iter (fun body -> assign way body.held at value) (Weak.get found 0)
  | Guarded { guarded; _ } -> assign way guarded at value
  | Foreign_block fields -> foreign_store fields at value

let load item field =
  match field with
  | 0 when inline item > 0 -> item.first
  | 1 when inline item > 0 -> item.second
  | _ -> load_from_rest item.rest (field - inline item)

let store item field value =
  match field with
  | 0 when inline item > 0 -> item.first <- value
  | 1 when inline item > 0 -> item.second <- value
  | _ -> store_in_rest item (field - inline item) value
