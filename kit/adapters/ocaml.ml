(* Answers scripts by the collector of OCaml.

       ocamlopt -o ocaml ocaml_roots.c ocaml_items.ml ocaml_slots.ml ocaml.ml  (Debian: ocaml-nox)
       .. -runtime-variant d -o ocaml_debug ..       (its runtime poisons what it frees, and looks at itself)
       OCAMLRUNPARAM=s=256,h=256,i=256,o=5,a=POLICY ocaml [natural | slices WORDS | minor | compacting] [EVERY]

   With these parameters heaps are small, and the allocator has one of its three policies, 0 to 2. In some modes of
   known.py the heap begins large, grows by more, or is compacted more often. After each EVERY commands (1) the
   collector works:
     natural     when it likes: litter fills the young heap, so that this is soon
     slices      by a slice of the old heap, of so many words
     minor       by a collection of the young heap; after each command no old object would lead to a young one, so EVERY
                 should be 3 or more
     compacting  as in natural, and `* quantum` compacts; the policy is another in the next script of a process

   Objects are in ocaml_items.ml: they keep references in many ways, in turn by their birth, and are written in many
   ways, in turn by the field. Slots are in ocaml_slots.ml, and roots of C in ocaml_roots.c.

   Cycles are those of the old heap, which begins one as it ends another. So one is under way but from a `* quantum` to
   the next collection of the young heap, as in OCaml 4. Which phase it is in isn't known to programs. *)

open Ocaml_items

let sessions = 8
let slots = 16
let most_fields = 216_000
exception Refused of string

(* What a line `config` begins anew. The board is behind the slots of the last session. *)
let names : (string, int) Hashtbl.t = Hashtbl.create sessions
let has_ended = Array.make sessions false

(* Of each command what its words are: a slot of the session (s), one that has to name an object (o), a slot of the
   board (b), a reference (r) or a number (n) of that object, or anything else (-). *)
let form_of = function
  | "new" -> "s--"
  | "get" -> "sor"
  | "put" -> "ors"
  | "read" -> "on"
  | "write" -> "on-"
  | "copy" | "same" -> "ss"
  | "clear" -> "s"
  | "shape" -> "o"
  | "post" -> "bs"
  | "take" -> "sb"
  | "end" -> ""
  | word -> failwith word

let root_of session letter number =
  match letter with
  | 's' | 'o' | 'b' ->
    if number >= slots then raise (Refused "1 bad slot");
    (if letter = 'b' then sessions else session) * slots + number
  | _ -> number

(* Refuses a command without the object, or without the field of it, that its form asks for. *)
let require_object form operands =
  let object_at = String.index_opt form 'o' in
  let require item letter count =
    match String.index_opt form letter with
    | Some at when operands.(at) >= count item -> raise (Refused "3 no field")
    | _ -> ()
  in
  match Option.map (fun at -> Ocaml_slots.get operands.(at)) object_at with
  | None -> ()
  | Some item when item == null -> raise (Refused "2 null")
  | Some item ->
    require item 'r' (fun item -> item.count);
    require item 'n' number_count

let make_at root references numbers =
  if references + numbers > most_fields then raise (Refused "4 too large");
  Ocaml_slots.set root (make references numbers)

(* Does a command whose slots are roots. A number that is written has all 64 bits, so it is given beside the others. *)
let perform session word operands value =
  let a = operands.(0) and b = operands.(1) and c = operands.(2) in
  let slot = Ocaml_slots.get in
  match word with
  | "new" -> make_at a b c; "ok"
  | "get" -> Ocaml_slots.set a (load (slot b) c); "ok"
  | "put" -> store (slot a) b (slot c); "ok"
  | "read" -> Printf.sprintf "number %Lu" (read (slot a) b)
  | "write" -> write (slot a) b value; "ok"
  | "clear" -> Ocaml_slots.set a null; "ok"
  | "same" -> if slot a == slot b then "yes" else "no"
  | "shape" -> Printf.sprintf "shape %d %d" (slot a).count (number_count (slot a))
  | "end" ->
    Ocaml_slots.clear (session * slots) slots;
    has_ended.(session) <- true;
    "ok"
  | _ -> Ocaml_slots.set a (slot b); "ok"

let command session word texts =
  if session >= sessions then raise (Refused "7 too many sessions");
  if has_ended.(session) then raise (Refused "6 ended");
  let form = form_of word and operands = Array.make 3 0 in
  let numbers = List.map (fun text -> Int64.of_string ("0u" ^ text)) texts in
  List.iteri (fun i number -> operands.(i) <- Int64.to_int number) numbers;
  String.iteri (fun i letter -> operands.(i) <- root_of session letter operands.(i)) form;
  require_object form operands;
  perform session word operands (match numbers with [ _; _; value ] -> value | _ -> 0L)

let session_of name =
  match Hashtbl.find_opt names name with
  | Some session -> session
  | None ->
    let session = min sessions (Hashtbl.length names) in
    Hashtbl.add names name session;
    session

(* How far the collector has come. *)
let cycles_before = ref 0
let cycles = ref 0
let minors = ref 0
let within = ref 0
let is_under_way = ref false

let look () =
  let seen = Gc.quick_stat () in
  if seen.minor_collections <> !minors then is_under_way := true;
  cycles := seen.major_collections;
  minors := seen.minor_collections

let words = List.tl (Array.to_list Sys.argv)
let numbers = List.filter_map int_of_string_opt words
let is_asked word = List.mem word words

(* The young heap and the window over which the collector spreads its work change their sizes now and then. Where the
   heap is compacted the allocator has another policy, too. *)
let change_sizes () =
  let turn = (!Ocaml_items.script - 1) / 4 mod 3 in
  let sizes = { (Gc.get ()) with minor_heap_size = 4096 + 512 * turn; window_size = 1 + turn } in
  Gc.set (if is_asked "compacting" then { sizes with allocation_policy = 2 - turn } else sizes)

let begin_anew () =
  Ocaml_slots.clear 0 Ocaml_slots.count;
  Ocaml_items.begin_anew ();
  change_sizes ();
  Hashtbl.reset names;
  Array.fill has_ended 0 sessions false;
  look ();
  cycles_before := !cycles;
  within := 0

let litter () = ignore (Sys.opaque_identity (Array.make most_young 0))

let step =
  match numbers with
  | size :: _ when is_asked "slices" -> fun () -> ignore (Gc.major_slice size)
  | _ when is_asked "minor" -> Gc.minor
  | _ -> litter

let every =
  match numbers with
  | _ :: every :: _ when is_asked "slices" -> every
  | every :: _ when not (is_asked "slices") -> every
  | _ -> 1

let quanta = ref 0

(* Brings the cycle that is under way to its end. *)
let quantum () =
  incr quanta;
  if is_asked "compacting" then Gc.compact ()
  else if !quanta mod 32 = 0 then Gc.full_major ()
  else Gc.major ();
  look ();
  is_under_way := false

(* A collection of the young heap begins a cycle if there is none. *)
let start () =
  Gc.minor ();
  look ()

let commands = ref 0

let answer name word texts =
  look ();
  if !is_under_way then incr within;
  print_endline (try command (session_of name) word texts with Refused why -> "refused " ^ why);
  incr commands;
  if !commands mod every = 0 then step ()

let control word =
  if word = "quantum" then quantum () else start ();
  Printf.printf "cycles %d within %d phase %s moves yes\n%!" (!cycles - !cycles_before) !within
    (if !is_under_way then "collecting" else "idle")

let rec serve () =
  match String.split_on_char ' ' (input_line stdin) with
  | "config" :: _ -> begin_anew (); serve ()
  | [ "*"; word ] -> control word; serve ()
  | name :: word :: texts -> answer name word texts; serve ()
  | _ -> failwith "no event"
  | exception End_of_file -> ()

let () = Ocaml_slots.serve serve null
