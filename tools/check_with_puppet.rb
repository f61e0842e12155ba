# Holds docs/NOTATION.md against Puppet's own parser; `tools/check_with_puppet` builds what is needed and runs it in the
# repository's folder:
#   ruby tools/check_with_puppet.rb REFERENCE SEED [--known]
# REFERENCE is the program made apart, whose reading of a text is ours.
# Puppet only parses and checks here. Nothing is compiled, and no facts of the machine are asked for.
# Exit status: 0 all as expected, 1 a difference that is not on the list, 2 anything else.

require 'open3'
require 'puppet'
require_relative 'puppet_trees'
require_relative 'puppet_differences'
require_relative 'puppet_expressions'

PAGE = 'docs/NOTATION.md'.freeze
EXAMPLES = 'examples/*.pp'.freeze
CASES = 'crates/run_cases/stdin'.freeze
ANSWERS = 'crates/run_cases/stdout'.freeze
PRINTED = 300
DRAWN = 8000
WRITTEN = 500
# Of two differences in one text the one that is met first.
ORDER = %i[parser checker otherwise].freeze

# Texts that Puppet is to read as we do, though one might doubt it.
ALIKE = [
  "kiosk { 'a': b => 1, }", 'kiosk { $x: }', 'kiosk { a: }', 'kiosk { -7: b => -7 }', 'kiosk { true: }',
  "kiosk { 'a': in => 1, type => 2, unless => 3, private => 4, undef => 5 }", 'kiosk { $x ? { a => b }: }',
  "kiosk { 'a': }\nkiosk { 'b': }", 'plan { day: }', "application { 'a': }", "site { 'a': }", "environment { 'a': }",
  "consumes { 'a': }", "produces { 'a': }", "notice { 'a': }\n$x = 1",
  'class { a: }', 'class { a: b => 1, }', 'class { site: }', 'include a', "include a\ninclude b", "include a\nkiosk { 'b': }",
  'include plan', "include notice\n$x = 1", 'include require', 'include environment',
  'class a { }', 'class a () { }', 'class a ( ) inherits b { }', 'class a ($x = gold, $y = -7, $z,) inherits b { $v = $x }',
  'class plan { }', 'class site { }', 'class environment { }', 'class application { }', 'class consumes { }',
  'class produces { }', 'class a inherits plan { }',
  'define u { }', 'define u () { }', 'define u ($a, ) { }', "define u ($a = 'b', $b = true) { $c = $a }", 'define u($a){}',
  "define u\n($a)\n{ }", 'define application { }',
  '$in = 1', '$type = $unless', '$x = $::in', '$x = $::type::function', '$undef = 1', '$plan = $private', '$x = $::attr::undef',
  'define u ($in, $type = 1) { }', '$x = plan', '$x = site', '$x = environment',
  'case $x { 1: { $a = 1 } }', 'case $x { 1: { } }', 'case $x { default: { $a = 1 } 1: { $a = 2 } }',
  "case $x { gold: { $a = 1 } -7: { } 'x': { } true: { } default: { } }", "case kiosk { 'x': { $a = 1 } }",
  'case $x ? { 1 => a } { a: { $y = 1 } }',
  'if $x { }', 'if $x { } else { }', 'if $x { $a = 1 }', 'if $x { } else { $a = 1 }', 'if $x { if $y { } }',
  'if kiosk { $a = 1 } else { $b = 2 }', 'if $x { $a = 1 } else { if $y { $a = 2 } else { $a = 3 } }',
  "if gate['a'][b] { $x = 1 }", 'if ($x) { $y = 1 }', 'if !$x { $y = 1 }', 'if $x ? { 1 => true } { $y = 1 }',
  'node default { }', 'node a, b { }', "node 'a', b { $x = 1 }", "node 'a_b.c-D' { }", "node '' { }", "node '7' { }",
  'node "a" { }', "node '-' { }", 'node plan { }', "node 'in' { }",
  "$x = 'a\nb'", '$x = "a\nb"', '$x = "a\"b\\\'c\\\\d"', "$x = 'a\\'b\\\\c'", "$x = 'a\\\\n'", "$x = '\\\\'", "$x = '\\\\\\''",
  '$x = "a$"', '$x = "$ a"', '$x = "$:"', "$x = '$y'", "$x = '${y}'", "$x = \"#\" # '", '$x = "/*"', "$x = 1 # /* \n$y = 2",
  "$x = 'a\r\nb'", "$x = '\u00e9'", "# \u00e9\n$x = 1", "$x = '\0'", "$x = ''", '$x = ""', "$x = 'in'", "$x = 'undef'",
  '# only a comment', '', "\r\n\t$x\t=\r1", '$x=1$y=2', "$x='a'$y='b'",
  '$x = 9223372036854775807', '$x = -9223372036854775807', '$x = -0', '$x = 0'
].freeze

def say(text)
  warn "check_with_puppet: #{text}"
end

def stop(text)
  say(text)
  exit 2
end

# A byte string as cases and answers write it: hexadecimal, `-` if it is empty.
def bytes_of(word)
  [word.to_s.delete('-')].pack('H*')
end

# Our side: many calls of the program made apart in one run of it.
class Reference
  def initialize(program)
    @program = program
  end

  def generate(seed, count)
    run('text-generate', seed.to_s, count.to_s).lines(chomp: true)
  end

  # For each input the bytes written, or nil where it is refused.
  def answers(call, inputs)
    lines = inputs.map { |input| "#{call} 65535 65536 #{input.empty? ? '-' : input.unpack1('H*')}\n" }
    out = run('text-batch', input: lines.join).lines(chomp: true)
    stop("#{out.length} answers to #{inputs.length} cases") unless out.length == inputs.length
    out.map { |line| line.start_with?('ok') ? bytes_of(line.split[1]) : nil }
  end

  private

  def run(*words, input: '')
    out, status = Open3.capture2(@program, *words, stdin_data: input, binmode: true)
    stop("#{@program} #{words[0]} failed") unless status.success?
    out
  end
end

# Puppet's side: a text's tree, or who refuses it and why.
class PuppetReader
  Reading = Struct.new(:refused, :tree, :why)

  # Without a call that reads settings Puppet has its own defaults, whatever the machine's files say.
  def initialize
    @parser = Puppet::Pops::Parser::Parser.new
  end

  def read(text)
    model = @parser.parse_string(text.dup.force_encoding('UTF-8')).model
    fault = faults(model).first
    Reading.new(fault && :checker, PuppetTree.program(model), fault && fault.issue.issue_code.to_s)
  # Bytes that are no UTF-8 end the parser with an ArgumentError of Ruby's, a wrong pattern between slashes with a RegexpError.
  rescue Puppet::ParseError, ArgumentError, RegexpError => e
    Reading.new(:parser, nil, e.message)
  end

  private

  def faults(model)
    acceptor = Puppet::Pops::Validation::Acceptor.new
    Puppet::Pops::Validation::ValidatorFactory_4_0.new.validator(acceptor).validate(model)
    acceptor.errors
  end
end

# One text, its manifest (nil where it is refused here) and Puppet's reading.
class Comparison
  attr_reader :text, :manifest, :puppet

  def initialize(text, bytes, puppet)
    @text = text
    @manifest = bytes && Manifest.new(bytes)
    @puppet = puppet
  end

  def ours
    manifest ? spell(manifest.tree) : 'refused'
  end

  def theirs
    puppet.refused ? "refused by the #{puppet.refused}: #{puppet.why}" : spell(puppet.tree)
  end

  def outcome
    return puppet.refused ? :refused : :outside unless manifest

    puppet.refused || (ours == theirs ? :alike : :otherwise)
  end

  def show
    "#{text.b.inspect}\n  here:  #{ours}\n  there: #{theirs}"
  end
end

# How many printed texts have no known difference, how many have one or more, what these meet, and how many have each.
class Tally
  attr_reader :plain
  attr_accessor :trees

  def initialize
    @plain = @trees = 0
    @known = Hash.new(0)
    @met = Hash.new(0)
  end

  def count(comparison, held)
    held.each { |difference| @known[difference.name] += 1 }
    held.empty? ? @plain += 1 : @met[comparison.outcome] += 1
  end

  def show(title)
    met = @met.sort.map { |outcome, count| "#{outcome} #{count}" }.join(', ')
    puts "#{title}: #{plain} without a known difference, #{@met.values.sum} with one or more (#{met}); trees compared: #{trees}"
    @known.sort.each { |name, count| puts "  #{name}: #{count}" }
  end
end

class Check
  def initialize(reference, reader, seed)
    @reference = reference
    @reader = reader
    @seed = seed
    @unexpected = 0
  end

  attr_reader :unexpected

  def compare(texts)
    converted(texts).map { |text, bytes| Comparison.new(text, bytes, @reader.read(text)) }
  end

  def expect(comparison, outcomes)
    return true if outcomes.include?(comparison.outcome)

    @unexpected += 1
    puts "#{comparison.outcome}, expected #{outcomes.join(' or ')}: #{comparison.show}"
    false
  end

  # Each text in the list of differences does what the list says.
  def differences(show)
    count = 0
    DIFFERENCES.each do |difference|
      puts "#{difference.name}:" if show
      compare(difference.texts.keys).zip(difference.texts.values) do |comparison, outcome|
        expect(comparison, [outcome])
        puts "#{outcome}: #{comparison.show}" if show
        count += 1
      end
    end
    puts "known differences: #{DIFFERENCES.length}, with #{count} texts"
  end

  def page
    texts = examples(PAGE)
    stop("#{PAGE}: #{texts.length} examples where three are expected") unless texts.length == 3
    compare(texts + ALIKE).each { |comparison| expect(comparison, [:alike]) }
    puts "texts to be read alike: the page's #{texts.length} examples, #{ALIKE.length} chosen by hand"
  end

  def example_files
    paths = Dir[EXAMPLES].sort
    stop("no #{EXAMPLES}") if paths.empty?
    compare(paths.map { |path| File.binread(path) }).each { |comparison| expect(comparison, [:alike]) }
    puts "example files to be read alike: #{paths.length} (#{paths.join(', ')})"
  end

  # The texts that the stored cases print.
  def stored
    tally = Tally.new
    texts = stored_texts
    stop("#{CASES}: no printed text") if texts.empty?
    compare(texts).each { |comparison| expect_printed(comparison, tally) }
    tally.show("stored printed texts, #{texts.length} (#{texts.uniq.length} different)")
  end

  # Random manifests as they are printed, until enough of them have no known difference.
  def printed
    tally = Tally.new
    texts('print').each_slice(50) do |texts|
      break if tally.plain >= PRINTED

      compare(texts).each { |comparison| expect_printed(comparison, tally) }
    end
    stop("only #{tally.plain} printed texts without a known difference") if tally.plain < PRINTED
    tally.show('printed texts of random manifests')
  end

  # Random texts by the grammar, spelled in all ways it allows. One that has a known difference may be read alike all the same.
  def written
    plain = with_difference = 0
    texts('convert').each_slice(50) do |texts|
      break if plain >= WRITTEN

      compare(converted(texts).select(&:last).map(&:first)).each do |comparison|
        next with_difference += 1 unless in_manifest(comparison).empty? && in_tokens(comparison).empty?

        plain += 1
        expect(comparison, [:alike])
      end
    end
    stop("only #{plain} random texts without a known difference") if plain < WRITTEN
    puts "random texts: #{plain} without a known difference, #{with_difference} with one or more"
  end

  def expressions
    fixed = Expressions.pairs + Expressions.chosen
    random = Expressions.random(@seed, 200)
    compare(fixed.map { |text| "$v = #{text}" }).each { |comparison| expect(comparison, [:alike]) }
    # Some have an operator behind a selector, which is outside the notation.
    taken = converted(random.map { |text| "$v = #{text}" }).select(&:last).map(&:first)
    compare(taken).each { |comparison| expect(comparison, [:alike]) }
    puts "expressions: #{fixed.length} fixed, #{taken.length} random"
  end

  private

  def converted(texts)
    texts = texts.map(&:b)
    texts.zip(@reference.answers('convert', texts))
  end

  # The page's examples are the indented texts that begin with an assignment.
  def examples(path)
    blocks = File.read(path).split(/^(?=\S)/).map { |part| part.lines.select { |line| line.start_with?('    ') || line.strip.empty? } }
    blocks.map { |lines| lines.map { |line| line.sub(/^    /, '') }.join.strip }.grep(/\A\$fee = 40$/)
  end

  # Each answer stands on the line of its case.
  def stored_texts
    cases, answers = [CASES, ANSWERS].map { |path| File.readlines(path, chomp: true) }
    stop("#{answers.length} lines in #{ANSWERS} for #{cases.length} in #{CASES}") unless answers.length == cases.length
    pairs = cases.zip(answers).select { |line, answer| line.start_with?('print ') && answer.start_with?('ok ') }
    pairs.map { |_, answer| bytes_of(answer.split[1]) }
  end

  # A printed text meets what the differences that its manifest has say, and nothing else. It is never refused here.
  def expect_printed(comparison, tally)
    return expect(comparison, [:alike]) unless comparison.manifest

    held = in_manifest(comparison)
    tally.count(comparison, held)
    expect(comparison, outcomes(held)) && expect_tree(comparison, held, tally)
  end

  def in_manifest(comparison)
    DIFFERENCES.select { |difference| difference.in_manifest&.call(comparison.manifest) }
  end

  def in_tokens(comparison)
    parts = tokens(comparison.text)
    DIFFERENCES.select { |difference| difference.in_tokens&.call(parts, comparison.manifest) }
  end

  def outcomes(held)
    return [:alike] if held.empty?

    all = held.flat_map(&:meets).uniq
    held.any? { |difference| difference.meets.length > 1 } ? all : [ORDER.find { |outcome| all.include?(outcome) }]
  end

  # Where the differences tell which tree Puppet's parser makes, it is that one, also if the checker refuses it.
  def expect_tree(comparison, held, tally)
    return unless comparison.puppet.tree && held.all?(&:there)

    tally.trees += 1
    tree = held.reduce(comparison.manifest.tree) { |changed, difference| difference.there.call(changed) }
    return if spell(tree) == spell(comparison.puppet.tree)

    @unexpected += 1
    puts "another tree than expected: #{comparison.show}"
  end

  # Random texts, printed from manifests or written by the grammar.
  def texts(call)
    inputs = @reference.generate(@seed, DRAWN).map(&:split).select { |words| words[0] == call }.map { |words| bytes_of(words[3]) }
    (call == 'print' ? @reference.answers('print', inputs).compact : inputs).reject(&:empty?).uniq
  end
end

def check_all(program, seed, *words)
  check = Check.new(Reference.new(program), PuppetReader.new, Integer(seed))
  say "Puppet #{Puppet.version}, seed #{seed}"
  say 'the list of known differences'
  check.differences(words == ['--known'])
  say 'texts chosen by hand'
  check.page
  say 'examples'
  check.example_files
  say 'expressions'
  check.expressions
  say 'stored printed texts'
  check.stored
  say 'printed texts of random manifests'
  check.printed
  say 'random texts'
  check.written
  puts "unexpected: #{check.unexpected}"
  check.unexpected.zero? ? 0 : 1
end

$stdout.sync = true
begin
  status = check_all(*ARGV)
rescue StandardError => e
  stop("#{e.class}: #{e.message.lines.first} (#{e.backtrace.first})")
end
exit status
