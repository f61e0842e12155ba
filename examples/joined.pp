# The settings of gyms.pp, joined in another order: classes and types may stand behind what uses them. The values are the same, the lines are not.
$fee = 40        # for a day
$peak = false    # whether it is peak season
$discount = 15   # on the fee, where the plan is gold
$opens = 8       # the hour at which gates open

# Harbor gym: a standard gym with a fee of its own in peak season.
node 'harbor-desk' {
  include standard
  if $peak {
    $fee = 55
  }
  kiosk { 'front':
    price => $fee,
    screens => $::standard::screens,
  }
}

# Its north gate closes early; the south gate is for peak season.
node 'harbor-gate' {
  entrance { 'north':
    hours => 12,
  }
  if $peak {
    entrance { 'south': }
  }
}

# Hill gym: a premium gym, whose price depends on its plan.
node 'hill-desk' {
  class { premium:
    wall => 'overhang',
  }
  case $::premium::plan {
    'gold': { $price = $fee - $discount }
    default: { $price = $fee }
  }
  kiosk { 'front':
    price => $price,
    screens => $::standard::screens,
  }
}

# Every other device has a screen in the lobby, which is not open.
node default {
  screen { 'lobby':
    open => false,
  }
}

# An entrance is a gate; it is open for 14 hours, unless its declaration says otherwise.
define entrance ($hours = 14) {
  gate { $title:
    from => $::opens,
    until => $::opens + $hours,
  }
}

# A standard gym has one screen, unless its declaration says otherwise, and offers a plan for a day.
class standard ($screens = 1) {
  $plan = 'basic'
  plan { 'day':
    price => $::fee,
  }
}

# A premium gym is a standard gym with a wall. The days from one reset to the next depend on the plan.
class premium ($wall) inherits standard {
  $plan = 'gold'
  wall { $wall:
    resets => $plan ? {
      'gold' => 30,
      default => 60,
    },
  }
}
