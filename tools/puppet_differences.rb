# Where Puppet reads a text otherwise than docs/NOTATION.md, or refuses it: the list of known differences, for
# tools/check_with_puppet.rb. The page's section "Where real Puppet differs" says the same in words.
#
# A difference has short texts, each with what happens:
#   :parser     taken here, refused by Puppet's parser
#   :checker    taken here, read by Puppet's parser, refused by the checker that runs behind it
#   :otherwise  taken here and there, with another tree there
#   :outside    refused here, taken there
# One that printed texts can have says by `in_manifest` which manifests have it, and by `meets` what their texts meet; where
# the tree there is known, `there` makes it from ours. One that is a matter of spelling says by `in_tokens` which texts may
# have it; of those no more is asked.

Difference = Struct.new(:name, :texts, :meets, :in_manifest, :there, :in_tokens, keyword_init: true)

# Words that Puppet keeps for itself and the notation does not.
PARSER_WORDS = %w[in type unless elsif function].freeze
VALUE_WORDS = %w[private attr undef].freeze
NAMES_OF_USES = %i[include class type read].freeze
# Types of Puppet's own, which no class and no defined type may be called.
TYPE_WORDS = %w[
  any array boolean collection enum float hash init integer numeric object optional pattern regexp runtime scalar semver
  semverrange sensitive string struct timespan timestamp tuple typeset unit variant
].freeze
LEAST = -(2**63)
SAME_TREE = ->(tree) { tree }

def utf8?(bytes)
  bytes.dup.force_encoding('UTF-8').valid_encoding?
end

def with_strings(tree, &change)
  case tree
  when Array then tree.map { |part| with_strings(part, &change) }
  when String then change.call(tree)
  else tree
  end
end

# An if or a case that does nothing whichever way it goes.
def idle?(tree)
  case tree[0]
  when :if then [tree[2], tree[3]].all? { |block| block.all? { |part| idle?(part) } }
  when :case then tree[2..].all? { |branch| branch[2].all? { |part| idle?(part) } }
  else false
  end
end

def idle_refused?(block, ends_body)
  *before, last = block
  before.any? { |part| idle?(part) } || (ends_body && !last.nil? && idle?(last))
end

DIFFERENCES = [
  Difference.new(
    name: '= as equality',
    texts: {
      'if $y = 2 { $z = 1 }' => :parser,
      '$x = $y ? { 1 => $y = 2 }' => :parser,
      "kiosk { 'a': b => $y = 2 }" => :parser,
      '$x = 1 = 2' => :checker,
      '$x = $y + 1 = 2' => :checker,
      '$x = $y = 2' => :otherwise,
      'if ($y = 2) { $z = 1 }' => :otherwise
    },
    in_tokens: ->(tokens, it) { tokens.count { |_, token| token == '=' } > it.single_equals }
  ),
  Difference.new(
    name: 'brackets around devices',
    texts: { "node ('a', 'b') { }" => :parser, "node ('a') { }" => :parser, 'node (a) { }' => :parser },
    in_tokens: ->(tokens, _) { tokens.each_cons(2).any? { |(_, left), (_, right)| left == 'node' && right == '(' } }
  ),
  Difference.new(
    name: 'a dollar sign in double quotes',
    texts: {
      '$y = "$x"' => :otherwise,
      '$y = "a ${x} b"' => :otherwise,
      '$y = "$::a::x"' => :otherwise,
      '$y = "$1"' => :otherwise,
      '$y = "$if"' => :otherwise,
      '$y = "$_"' => :otherwise,
      '$y = "$A"' => :checker,
      '$y = "$::1"' => :checker,
      '$y = "${1 + 2}"' => :otherwise,
      '$y = "${"' => :parser,
      '$y = "${}"' => :parser,
      'node "a$x" { }' => :checker
    },
    in_tokens: ->(tokens, _) { tokens.any? { |_, token| token.match?(/\A".*\$[\w:{]/mn) } }
  ),
  Difference.new(
    name: 'a line feed or a double quote escaped in single quotes',
    texts: { "$y = 'a\\nb'" => :otherwise, "$y = 'a\\\"b'" => :otherwise },
    meets: [:otherwise],
    in_manifest: ->(it) { (it.strings + it.devices).any? { |string| string.include?("\n") } },
    there: ->(tree) { with_strings(tree) { |string| string.gsub("\n", '\n') } },
    in_tokens: ->(tokens, _) { tokens.any? { |_, token| token.match?(/\A'.*\\[n"]/mn) } }
  ),
  Difference.new(
    name: 'a minus sign right behind a word or keyword, with a letter or digit right behind it',
    texts: {
      '$y = $a or-2' => :otherwise,
      'if-7 { $y = 1 }' => :parser,
      'if $x and-7 { $y = 1 }' => :parser,
      '$y = gold-7' => :otherwise,
      '$y = a-b' => :otherwise,
      '$y = a--7' => :otherwise,
      '$y = true-7' => :otherwise,
      '$y = true-b' => :otherwise,
      "$y = a-b['c'][d]" => :otherwise
    },
    in_tokens: ->(tokens, _) { tokens.each_cons(2).any? { |(_, left), (space, right)| space.empty? && right == '-' && left.match?(/\A[a-z]/n) } }
  ),
  Difference.new(
    name: 'white space before a square bracket',
    texts: {
      "$y = gate ['north'][from]" => :otherwise,
      "$y = gate['north'] [from]" => :otherwise,
      "if gate['north'] [from] { $z = 1 }" => :parser,
      "$y = gate['north']\n[from]\n$z = 1" => :checker
    },
    in_tokens: ->(tokens, _) { tokens.any? { |space, token| token == '[' && !space.empty? } }
  ),
  Difference.new(
    name: 'a case without branches',
    texts: { 'case $x { }' => :parser },
    meets: [:parser],
    in_manifest: ->(it) { it.blocks.any? { |block, _| block.any? { |part| part[0] == :case && part.length == 2 } } }
  ),
  Difference.new(
    name: 'bytes that are no UTF-8',
    texts: { "$y = '\xFF'" => :parser, "# \xFF\n$y = 1" => :parser, "node '\xC3' { }" => :parser },
    meets: [:parser],
    in_manifest: ->(it) { (it.strings + it.devices).any? { |string| !utf8?(string) } },
    in_tokens: ->(tokens, _) { !utf8?(tokens.join) }
  ),
  Difference.new(
    name: 'in, type, unless, elsif and function as names',
    texts: {
      'define in { }' => :parser,
      'class type { }' => :parser,
      'class a inherits function { }' => :parser,
      'include unless' => :parser,
      'class { type: }' => :parser,
      "unless { 'a': b => 1 }" => :parser,
      "elsif { 'a': }" => :parser,
      "$x = in['a'][b]" => :parser,
      "$x = gate['a'][type]" => :parser,
      '$x = function' => :parser,
      'case $x { in: { $y = 1 } }' => :parser,
      'kiosk { type: }' => :parser,
      'define u ($x = unless) { }' => :parser,
      'node elsif { }' => :parser
    },
    meets: [:parser],
    in_manifest: ->(it) { PARSER_WORDS.any? { |word| it.names.any? { |place, names| names.include?(word) && [place, word] != [:include, 'in'] } } },
    in_tokens: ->(tokens, _) { (tokens.map(&:last) & PARSER_WORDS).any? }
  ),
  Difference.new(
    name: 'include in',
    texts: { 'include in' => :parser, "include in\n$x = 1" => :checker, "include in\nkiosk { 'a': }" => :otherwise },
    meets: %i[parser checker otherwise],
    in_manifest: ->(it) { it.names[:include].include?('in') }
  ),
  Difference.new(
    name: 'private, attr and undef as names of definitions, parents and devices',
    texts: {
      'class private { }' => :parser,
      'define attr { }' => :parser,
      'class undef { }' => :parser,
      'class a inherits undef { }' => :parser,
      'node attr { }' => :parser,
      'node undef { }' => :parser
    },
    meets: [:parser],
    in_manifest: ->(it) { ((it.names[:definition] + it.names[:parent]) & VALUE_WORDS).any? },
    in_tokens: ->(tokens, _) { (tokens.map(&:last) & VALUE_WORDS).any? }
  ),
  Difference.new(
    name: 'private and attr as other names',
    texts: {
      'include private' => :checker,
      'class { attr: }' => :checker,
      "private { 'a': }" => :checker,
      "$x = attr['a'][b]" => :checker,
      "$x = gate['a'][attr]" => :checker,
      '$x = private' => :checker,
      'case $x { attr: { $y = 1 } }' => :checker
    },
    meets: [:checker],
    in_manifest: ->(it) { NAMES_OF_USES.any? { |place| (it.names[place] & %w[private attr]).any? } }
  ),
  Difference.new(
    name: 'undef as another name',
    texts: {
      'include undef' => :otherwise,
      'class { undef: }' => :otherwise,
      "undef { 'a': }" => :otherwise,
      "$x = undef['a'][b]" => :otherwise,
      "$x = gate['a'][undef]" => :otherwise,
      '$x = undef' => :otherwise,
      '$x = $y ? { undef => 1 }' => :otherwise,
      'kiosk { undef: }' => :otherwise
    },
    meets: [:otherwise],
    in_manifest: ->(it) { NAMES_OF_USES.any? { |place| it.names[place].include?('undef') } }
  ),
  Difference.new(
    name: "a class or type with a name of Puppet's types",
    texts: TYPE_WORDS.to_h { |word| ["class #{word} { }", :checker] }.merge('define string ($a) { }' => :checker),
    meets: [:checker],
    there: SAME_TREE,
    in_manifest: ->(it) { it.names[:definition].any? { |name| TYPE_WORDS.include?(name) } }
  ),
  Difference.new(
    name: 'the least number',
    texts: { '$y = -9223372036854775808' => :checker },
    meets: [:checker],
    there: SAME_TREE,
    in_manifest: ->(it) { it.numbers.include?(LEAST) }
  ),
  Difference.new(
    name: 'an if or case that does nothing',
    texts: {
      "if $x { }\n$y = 1" => :checker,
      "if $x { }\nnode a { }" => :checker,
      "case $x { 1: { } }\n$y = 1" => :checker,
      'if $x { if $y { } $z = 1 }' => :checker,
      'node a { if $x { } }' => :checker,
      'class c { case $x { default: { } } }' => :checker,
      'define d { if $x { } else { if $y { } } }' => :checker
    },
    meets: [:checker],
    there: SAME_TREE,
    in_manifest: ->(it) { it.blocks.any? { |block, ends_body| idle_refused?(block, ends_body) } }
  ),
  Difference.new(
    name: 'default twice',
    texts: {
      'case $x { default: { $a = 1 } default: { $a = 2 } }' => :checker,
      '$y = $x ? { default => 1, default => 2 }' => :checker
    },
    meets: [:checker],
    there: SAME_TREE,
    in_manifest: ->(it) { it.patterns.any? { |all| all.count(:default) > 1 } }
  ),
  Difference.new(
    name: 'a parameter that stands twice or is called title or name',
    texts: {
      'define u ($a, $a) { }' => :checker,
      'define u ($title) { }' => :checker,
      'class c ($name = 1) { }' => :checker
    },
    meets: [:checker],
    there: SAME_TREE,
    in_manifest: ->(it) { it.parameters.any? { |all| all.uniq != all || all.include?('title') || all.include?('name') } }
  ),
  Difference.new(
    name: 'a device with other bytes than letters, digits, _, - and .',
    texts: {
      "node 'a b' { }" => :checker,
      "node 'a:b' { }" => :checker,
      "node 'a/b' { }" => :checker,
      "node '\u00e9' { }" => :checker,
      "node 'a\nb' { }" => :checker
    },
    meets: [:checker],
    there: SAME_TREE,
    in_manifest: ->(it) { it.devices.any? { |name| name.match?(/[^-\w.]/n) } }
  ),
  Difference.new(
    name: 'what Puppet has and the notation has not',
    texts: {
      '$y = - 7' => :outside,
      '$y = 007' => :outside,
      '$y = -$x' => :outside,
      '$y = $x ? { 1 => 2 } / 3' => :outside,
      '$y = $x ? { 1 => 2 } + 3' => :outside,
      '$y = $x ? { 1 => 2 } - 3' => :outside,
      '$y = $x ? { 1 => 2 } == 3' => :outside,
      '$y = $x ? { 1 => 2 } > 3' => :outside,
      "node 'a', 'b', { }" => :outside,
      "node 'a', default { }" => :outside,
      "class { 'a': }" => :outside,
      "$y = Gate['north'][from]" => :outside,
      "$y = Gate['north']['from']" => :outside,
      'include a, b' => :outside,
      "kiosk { 'a': if => 1 }" => :outside,
      '$y = $if' => :outside,
      "kiosk { 'a':; 'b': }" => :outside,
      'case $x { 1, 2: { $y = 1 } }' => :outside,
      "if $x { $y = 1 } elsif $z { $y = 2 }" => :outside
    }
  )
].freeze
