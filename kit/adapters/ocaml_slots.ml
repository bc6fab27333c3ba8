(* The slots of the adapter for OCaml, in turn of each kind of root that the runtime has: fields of a global array,
   generational and other global roots of C, and local roots of C. *)

open Ocaml_items

external generational : int -> item -> item = "adapter_generational" [@@noalloc]
external set_generational : int -> item -> item -> unit = "adapter_set_generational" [@@noalloc]
external global : int -> item = "adapter_global" [@@noalloc]
external set_global : int -> item -> unit = "adapter_set_global" [@@noalloc]
external local : int -> item = "adapter_local" [@@noalloc]
external set_local : int -> item -> unit = "adapter_set_local" [@@noalloc]
external serve : (unit -> unit) -> item -> unit = "adapter_serve"

let count = 144
let fields = Array.make count null

let get root =
  match root mod 4 with
  | 0 -> fields.(root)
  | 1 -> generational root null
  | 2 -> global root
  | _ -> local root

let set root item =
  match root mod 4 with
  | 0 -> fields.(root) <- item
  | 1 -> set_generational root item null
  | 2 -> set_global root item
  | _ -> set_local root item

let clear first number =
  Array.fill fields first number null;
  for root = first to first + number - 1 do
    set root null
  done
