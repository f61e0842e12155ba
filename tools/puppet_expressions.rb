# Expressions of the notation whose grouping is compared, for tools/check_with_puppet.rb.

module Expressions
  BINARY = %w[/ + - == > and or].freeze
  SELECTOR = '? { 1 => 2, default => $d }'.freeze

  module_function

  # Every two operators next to each other, without brackets and with them on either side.
  def pairs
    BINARY.product(BINARY).flat_map do |first, second|
      ["$a #{first} $b #{second} $c", "($a #{first} $b) #{second} $c", "$a #{first} ($b #{second} $c)", "1 #{first} -7 #{second} -2"]
    end + beside_selectors + beside_signs
  end

  def beside_selectors
    BINARY.map { |sign| "$a #{sign} $b #{SELECTOR}" } +
      BINARY.map { |sign| "$a #{sign} ($b #{SELECTOR})" } +
      BINARY.map { |sign| "($a #{SELECTOR}) #{sign} $b" } +
      BINARY.map { |sign| "$a ? { 1 => $b #{sign} $c, 2 => $d }" } +
      %w[and or].map { |sign| "$a #{SELECTOR} #{sign} $b" } +
      ["$a #{SELECTOR} #{SELECTOR}", "!$a #{SELECTOR}", "! ($a #{SELECTOR})", "-7 #{SELECTOR}", "$a and !$b #{SELECTOR} or $c"]
  end

  def beside_signs
    BINARY.flat_map do |sign|
      [
        "! $a #{sign} $b", "$a #{sign} ! $b", "! ($a #{sign} $b)", "-7 #{sign} $a", "$a #{sign} -7", "! -7 #{sign} $a",
        "gold #{sign} b['c'][d]", "true #{sign} 'x' #{sign} false"
      ]
    end
  end

  def chosen
    [
      '1 > 2 == true', '1 == 2 > 3 == 4', '$a > $b > $c', '1 - 2 - 3', '8 / 4 / 2', '1-7', '1 -7', '1- 7', '1--7', '1 --7',
      '1 - -7', '-7-7', '(1)-7', '(1) -7', '$x-7', '$x -7', 'gold -7', 'gold - 7', 'gold- 7', 'gold-$x', "'a'-7", 'true -7',
      "gate['a'][b]-7", "gate['a'][b] -7", 'gate[-7][b]', 'gate[$a + 1][b] / 2', "gate[gate['a'][b]][c]", "!gate['a'][b]",
      '!!$a', '! ! $a', '!(!$a)', '!-7', '((($a)))', '(-7)', '1 -(7)',
      '(1) / 2 / 3', '$a / 2 / 3', "gate['a'][b] / 2 / 3", 'true / 2 / 3', 'gold / 2 / 3', "'a' / 2 / 3", '$a/$b/$c',
      '$a+$b>$c==$d', '$a>$b', 'a==b', '$a ?{1=>2}', '$a?{1=>2}', 'a?{a=>b,}',
      "$a ? { -7 => -7, gold => gold, 'x' => !$b, true => false, default => $b and $c }", '$a ? { 1 => $b ? { 2 => 3 } }',
      '$a ? { default => 1, 1 => 2 }', '$a ? { 1 => 2 } ? { 2 => 3 } and $c ? { 4 => 5 }',
      "$a\n  and ($b)\n  or\n($c)", "(\n$a\n)", "$a + # x\n$b", '$::a + $::b::c', 'unless_ + in_', 'plan + site', 'notice + require'
    ]
  end

  # Random ones: operands and operators in a row, with brackets, white space and selectors as it comes.
  def random(seed, count)
    source = Random.new(seed)
    Array.new(count) { row(source, 3) }
  end

  def row(source, depth)
    text = operand(source, depth)
    source.rand(1..4).times { text = more(source, depth, text) }
    text
  end

  def more(source, depth, text)
    return "#{text}#{space(source)}? { #{arms(source, depth)} }" if source.rand(8).zero?

    # A minus right behind a word is a part of the word in Puppet.
    "#{text} #{BINARY.sample(random: source)} #{operand(source, depth)}"
  end

  def arms(source, depth)
    Array.new(source.rand(1..3)) { "#{pattern(source)} => #{depth.zero? ? leaf(source) : row(source, depth - 1)}" }.join(', ')
  end

  def operand(source, depth)
    kind = depth.zero? ? 9 : source.rand(10)
    case kind
    when 0, 1 then "(#{space(source)}#{row(source, depth - 1)}#{space(source)})"
    when 2 then "!#{space(source)}#{operand(source, depth - 1)}"
    when 3 then "gate[#{row(source, depth - 1)}][from]"
    else leaf(source)
    end
  end

  def leaf(source)
    ['7', '-7', '0', "'x'", '"y"', 'gold', 'true', 'false', '$a', '$b', '$::c', '$::d::e'].sample(random: source)
  end

  def pattern(source)
    ['7', '-7', "'x'", 'gold', 'true'].sample(random: source)
  end

  def space(source)
    ['', ' ', "\n", "\t "].sample(random: source)
  end
end
