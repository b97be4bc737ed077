import vobrekan

machine = vobrekan.Machine(1 << 20)
with machine:  # a transaction
    system, ram = machine.container(), machine.ram(0x10000)
    machine.space(0, system)
    machine.add(system, 0, ram)
assert machine.last == 1
assert machine.find(0, 0x10).region == ram
