# How objects of the adapter for Ruby keep their fields where only the interpreter comes: in local variables, weak maps,
# fibers, and objects that can't be changed. Each class has `new FIELDS`, `holder[FIELD]` and `holder[FIELD] = VALUE`.

# Fields in parts of four variables.
class Parts
  def initialize(fields)
    @parts = Array.new((fields + 3) / 4) { part }
  end

  def [](field)
    load(@parts[field / 4], field % 4)
  end

  def []=(field, value)
    store(@parts[field / 4], field % 4, value)
  end
end

# Local variables that a closure reads and another sets.
class Closures < Parts
  def part
    a = b = c = d = nil
    reader = ->(place) { case place when 0 then a when 1 then b when 2 then c else d end }
    writer = lambda do |place, value|
      case place when 0 then a = value when 1 then b = value when 2 then c = value else d = value end
    end
    [reader, writer]
  end

  def load(part, place)
    part[0].call(place)
  end

  def store(part, place, value)
    part[1].call(place, value)
  end
end

# Local variables that a binding has captured, and one that it gets later.
class Scopes < Parts
  NAMES = %i[a b c late].freeze

  def part
    a = b = c = nil
    made = binding
    made.local_variable_set(:late, nil)
    made
  end

  def load(part, place)
    part.local_variable_get(NAMES[place])
  end

  def store(part, place, value)
    part.local_variable_set(NAMES[place], value)
  end
end

# Instance variables by the interpreter's own instructions. The last lies outside of the object.
class Attributes < Parts
  class Part
    attr_accessor :a, :b, :c

    def last
      @last
    end

    def last=(value)
      @last = value
    end
  end

  def part
    made = Part.new
    made.a = made.b = made.c = made.last = nil
    made
  end

  def load(part, place)
    case place when 0 then part.a when 1 then part.b when 2 then part.c else part.last end
  end

  def store(part, place, value)
    case place
    when 0 then part.a = value
    when 1 then part.b = value
    when 2 then part.c = value
    else part.last = value
    end
  end
end

# Members of a structure, by its own methods and by their places.
class Members < Parts
  Part = Struct.new(:a, :b, :c, :d)

  def part
    Part.new
  end

  def load(part, place)
    case place when 0 then part.a when 1 then part.b else part[place] end
  end

  def store(part, place, value)
    case place when 0 then part.a = value when 1 then part.b = value else part[place] = value end
  end
end

# Local variables of a suspended fiber. It answers a place with what it has, and a pair with nothing.
class Coroutines < Parts
  def part
    made = Fiber.new do |place|
      a = b = c = d = nil
      loop do
        if place.is_a?(Array)
          place, value = place
          case place when 0 then a = value when 1 then b = value when 2 then c = value else d = value end
          place = Fiber.yield
        else
          place = Fiber.yield(case place when 0 then a when 1 then b when 2 then c else d end)
        end
      end
    end
    made.resume(0)
    made
  end

  def load(part, place)
    part.resume(place)
  end

  def store(part, place, value)
    part.resume([place, value])
  end
end

# Variables of a thread, which has ended, and of its fiber.
class Threads < Parts
  NAMES = %i[a b c d].freeze

  def part
    Thread.new { nil }.tap(&:join)
  end

  def load(part, place)
    place < 2 ? part.thread_variable_get(NAMES[place]) : part[NAMES[place]]
  end

  def store(part, place, value)
    place < 2 ? part.thread_variable_set(NAMES[place], value) : part[NAMES[place]] = value
  end
end

# A new object for each value: a range, an enumerator, a method, a closure of itself.
class Boxes
  def initialize(fields)
    @boxes = Array.new(fields)
  end

  def [](field)
    box = @boxes[field]
    case field % 4
    when 0 then box && box.begin
    when 1 then box && box.first
    when 2 then box && box.receiver
    else box && box.call
    end
  end

  def []=(field, value)
    @boxes[field] = value.nil? ? nil : box(field % 4, value)
  end

  def box(kind, value)
    case kind
    when 0 then Range.new(value, nil)
    when 1 then [value].each_entry
    when 2 then value.method(:itself)
    else -> { value }
    end
  end
end

# Values are keys, of hashes with one entry each.
class Keys
  def initialize(fields)
    @tables = Array.new(fields) { {}.compare_by_identity }
  end

  def [](field)
    @tables[field].each_key { |key| return key }
    nil
  end

  def []=(field, value)
    @tables[field].clear
    @tables[field][value] = field unless value.nil?
  end
end

# Keys are objects of the fields, and are compared by their addresses.
class Identities
  KEYS = Array.new(300) { Object.new }

  def initialize(fields)
    @table = {}.compare_by_identity
  end

  def [](field)
    @table[KEYS[field % 300]]
  end

  def []=(field, value)
    @table[KEYS[field % 300]] = value
  end
end

# Values are read from a weak map, by keys that are kept alive, as the boxes of the values are. Both are new for each
# value: if Ruby 3.1 frees what a key led to before, it drops what the key leads to now.
class WeakEntries
  MAP = ObjectSpace::WeakMap.new

  def initialize(fields)
    @boxes = Array.new(fields)
    @keys = Array.new(fields)
  end

  def [](field)
    box = MAP[@keys[field]]
    box && box[0]
  end

  def []=(field, value)
    @keys[field] = Object.new
    @boxes[field] = [value]
    MAP[@keys[field]] = @boxes[field]
  end
end

# Values are found by their numbers, and kept alive by an array.
class Numbered
  def initialize(fields)
    @values = Array.new(fields)
    @numbers = Array.new(fields)
  end

  def [](field)
    @values[field].nil? ? nil : ObjectSpace._id2ref(@numbers[field])
  end

  def []=(field, value)
    @values[field] = value
    @numbers[field] = value.object_id
  end
end

# An array that is changed by its methods, one of which the field chooses. It is shared with copies now and then.
class Lists
  def initialize(fields)
    @list = [nil] * fields
  end

  def [](field)
    @list.at(field)
  end

  def []=(field, value)
    case field % 6
    when 0 then @list[field] = value
    when 1 then @list[field, 1] = [value]
    when 2 then @list.fill(value, field, 1)
    when 3 then @list = @list.first(field) + [value] + @list.drop(field + 1)
    when 4 then @list.replace(@list.dup.tap { |copy| copy[field] = value })
    else @list.insert(field, value).delete_at(field + 1)
    end
  end
end

# A hash that is changed by its methods, one of which the field chooses. Its default is the first field.
class Tables
  def initialize(fields)
    @table = {}
  end

  def [](field)
    field == 0 ? @table.default : @table.fetch(field, nil)
  end

  def []=(field, value)
    case field % 4
    when 0 then field == 0 ? @table.default = value : @table.store(field, value)
    when 1 then @table.update(field => value)
    when 2 then @table = @table.merge({ field => value })
    else @table.delete(field) && @table.rehash
      @table[field] = value
    end
  end
end

# Local variables of a fiber that is a root.
ROOTS = Coroutines.new(24)

# How many objects were finalized. Their finalizers are objects too, which only their table leads to.
$finalized = 0

# Blocks that a collection has freed are filled with these, which are dropped at once.
def litter(count)
  object = "an object with two finalizers"
  finalise(object, [1])
  finalise(object, [2])
  count.times do |number|
    case number % 4
    when 0 then "litter #{number}"
    when 1 then [number, number, number]
    when 2 then 1.0e300 + number * 1.0e290
    else { number => number }
    end
  end
end

def finalise(object, weight)
  ObjectSpace.define_finalizer(object, proc { $finalized += weight.fetch(0) })
end
