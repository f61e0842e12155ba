# Two readings of one text as trees of one shape, for tools/check_with_puppet.rb: ours from the manifest's bytes, Puppet's
# from the model that its parser makes.
#
# A tree is a nested list. Its leaves are symbols (names, variables, signs), integers, true and false, and strings (string
# constants and devices, by their bytes). `spell` writes it with a bracket for each list, so that grouping shows.

def spell(tree)
  case tree
  when Array then "(#{tree.map { |part| spell(part) }.join(' ')})"
  when String then tree.b.inspect
  else tree.to_s
  end
end

# The tokens of a text that the converter takes, each with the white space and comments before it.
def tokens(text)
  text.b.scan(/((?:[ \t\r\n]|#[^\n]*)*)(\$[a-z0-9_:]+|[a-z][a-z0-9_]*|\d+|'(?:[^'\\]|\\.)*'|"(?:[^"\\]|\\.)*"|==|=>|.|\z)/mn)
end

# A manifest's fields, read by the scope paper's list. Beside the tree it keeps what the known differences ask about.
class Manifest
  OPERATORS = %i[+ - / > == and or].freeze

  # What the text names, by the place it stands in; `blocks` has each list of statements with whether a definition or a node
  # ends with it, `patterns` the patterns of each case and selector.
  attr_reader :tree, :names, :strings, :devices, :numbers, :parameters, :patterns, :blocks
  # How many assignments and defaults of parameters there are: each is written with one `=`.
  attr_reader :single_equals

  def initialize(bytes)
    @names = Hash.new { |all, place| all[place] = [] }
    @strings, @devices, @numbers, @parameters, @patterns, @blocks = [], [], [], [], [], []
    @single_equals = 0
    table, *items = fields(bytes.b)
    @table = fields(table[1]).map(&:last)
    @tree = block(items, false)
  end

  private

  def fields(bytes)
    parts = []
    at = 0
    while at < bytes.length
      length = bytes[at + 1, 2].unpack1('n')
      parts << [bytes.getbyte(at), bytes[at + 3, length]]
      at += 3 + length
    end
    parts
  end

  def name(body, at = 0)
    @table[body[at, 2].unpack1('n')]
  end

  # The name, noted under the place it stands in.
  def used(place, body, at = 0)
    @names[place] << name(body, at)
    name(body, at).to_sym
  end

  def block(parts, ends_body)
    tree = parts.map { |part| statement(*part) }
    @blocks << [tree, ends_body]
    tree
  end

  def inner(field)
    block(fields(field[1]), false)
  end

  # The block that a node or a definition ends with.
  def last_block(field)
    block(fields(field[1]), true)
  end

  def statement(tag, body)
    case tag
    when 0x21 then assignment(body)
    when 0x22
      test, first, second = fields(body)
      [:if, expression(*test), inner(first), inner(second)]
    when 0x23
      on, *branches = fields(body)
      [:case, expression(*on), *entries(branches) { |result| inner(result) }]
    when 0x25, 0x27
      title, *attributes = fields(body[2..])
      [:resource, used(:type, body), expression(*title), *attributes.map { |part| attribute(part[1]) }]
    when 0x28 then [:resource, :class, used(:class, body).to_s, *fields(body[2..]).map { |part| attribute(part[1]) }]
    when 0x29 then [:include, used(:include, body).to_s]
    else item(tag, body)
    end
  end

  def assignment(body)
    @single_equals += 1
    [:set, :"$#{name(body)}", expression(*fields(body[2..])[0])]
  end

  def item(tag, body)
    case tag
    when 0x30
      *devices, last = fields(body)
      [:node, devices.map { |kind, part| kind == 0x1b ? :default : device(part) }, last_block(last)]
    when 0x32
      *parts, last = fields(body[2..])
      [:define, used(:definition, body), parameter_list(parts), last_block(last)]
    when 0x34
      *parts, last = fields(body[2..])
      parent = parts.shift[1] if parts[0] && parts[0][0] == 0x35
      [:class, used(:definition, body), parent ? used(:parent, parent) : :none, parameter_list(parts), last_block(last)]
    end
  end

  def device(body)
    @devices << name(body)
    name(body)
  end

  def parameter_list(parts)
    @parameters << parts.map { |part| name(part[1]) }
    parts.map do |_, body|
      default = fields(body[2..]).map { |part| expression(*part) }
      @single_equals += default.length
      [:"$#{name(body)}", *default]
    end
  end

  def attribute(body)
    [name(body).to_sym, :'=>', expression(*fields(body[2..])[0])]
  end

  # The branches of a case or the arms of a selector.
  def entries(parts)
    pairs = parts.map do |_, body|
      pattern, result = fields(body)
      [pattern[0] == 0x1b ? :default : expression(*pattern), :'=>', yield(result)]
    end
    @patterns << pairs.map(&:first)
    pairs
  end

  def expression(tag, body)
    case tag
    when 0x10 then body[1, 8].unpack1('q>').tap { |number| @numbers << number }
    when 0x11 then name(body, 1).tap { |string| @strings << string }
    when 0x12 then body.getbyte(1) == 1
    when 0x13 then :"$#{name(body)}"
    when 0x14 then :"$::#{name(body)}"
    when 0x15 then :"$::#{name(body)}::#{name(body, 2)}"
    when 0x16
      left, right = fields(body[1..]).map { |part| expression(*part) }
      [left, OPERATORS[body.getbyte(0)], right]
    when 0x17 then [:!, expression(*fields(body)[0])]
    when 0x18 then [:read, used(:read, body).to_s, expression(*fields(body[4..])[0]), used(:read, body, 2).to_s]
    when 0x19
      on, *arms = fields(body)
      [expression(*on), :'?', *entries(arms) { |result| expression(*result) }]
    end
  end
end

# Puppet's model of a text as a tree. What the notation has no form for is spelled as [:other, its class].
module PuppetTree
  M = Puppet::Pops::Model

  module_function

  def program(model)
    block(model.body)
  end

  def block(body)
    case body
    when nil, M::Nop then []
    when M::BlockExpression then body.statements.map { |part| statement(part) }
    else [statement(body)]
    end
  end

  def statement(it)
    case it
    when M::AssignmentExpression then [:set, expression(it.left_expr), expression(it.right_expr)]
    when M::IfExpression then [:if, expression(it.test), block(it.then_expr), block(it.else_expr)]
    when M::CaseExpression
      [:case, expression(it.test), *it.options.map { |part| [*part.values.map { |value| expression(value) }, :'=>', block(part.then_expr)] }]
    when M::ResourceExpression then [:resource, word(it.type_name), *it.bodies.flat_map { |part| resource_body(part) }]
    when M::CallNamedFunctionExpression then [word(it.functor_expr), *it.arguments.map { |part| expression(part) }]
    when M::NodeDefinition then [:node, it.host_matches.map { |part| expression(part) }, block(it.body)]
    when M::ResourceTypeDefinition then [:define, it.name.to_sym, parameters(it), block(it.body)]
    when M::HostClassDefinition
      [:class, it.name.to_sym, (it.parent_class || 'none').to_sym, parameters(it), block(it.body)]
    else [:value, expression(it)]
    end
  end

  def resource_body(it)
    [expression(it.title), *it.operations.map { |part| [part.attribute_name.to_sym, part.operator.to_sym, expression(part.value_expr)] }]
  end

  def parameters(it)
    it.parameters.map { |part| [:"$#{part.name}", *(part.value ? [expression(part.value)] : [])] }
  end

  # A name that is not a constant.
  def word(it)
    it.is_a?(M::QualifiedName) ? it.value.to_sym : expression(it)
  end

  def expression(it)
    case it
    when M::LiteralInteger, M::LiteralBoolean then it.value
    when M::LiteralString, M::QualifiedName then it.value.b
    when M::LiteralDefault then :default
    when M::VariableExpression then :"$#{it.expr.value}"
    when M::ParenthesizedExpression then expression(it.expr)
    when M::UnaryMinusExpression then negative(expression(it.expr))
    when M::NotExpression then [:!, expression(it.expr)]
    when M::ArithmeticExpression, M::ComparisonExpression then [expression(it.left_expr), it.operator.to_sym, expression(it.right_expr)]
    when M::AndExpression then [expression(it.left_expr), :and, expression(it.right_expr)]
    when M::OrExpression then [expression(it.left_expr), :or, expression(it.right_expr)]
    when M::SelectorExpression
      [expression(it.left_expr), :'?', *it.selectors.map { |part| [expression(part.matching_expr), :'=>', expression(part.value_expr)] }]
    when M::AccessExpression then access(it)
    when M::AssignmentExpression then [expression(it.left_expr), :'=', expression(it.right_expr)]
    when M::ConcatenatedString then [:joined, *it.segments.map { |part| expression(part) }]
    when M::TextExpression then [:text, expression(it.expr)]
    else [:other, it.class.name.split('::').last.to_sym]
    end
  end

  def negative(tree)
    tree.is_a?(Integer) ? -tree : [:-, tree]
  end

  def access(it)
    left = it.left_expr
    keys = it.keys.map { |part| expression(part) }
    return [:element, expression(left), *keys] unless left.is_a?(M::AccessExpression)

    [:read, expression(left.left_expr), *left.keys.map { |part| expression(part) }, *keys]
  end
end
