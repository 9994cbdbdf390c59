"""The words that the bench's run leaves in a lent state, from the second reading of the rules: what crates/replay must print.

    python3 oracle/replay_words.py > crates/replay/stdout

The layout is that of layout.py, written from docs/LAYOUT.md and not from the Rattle code.
"""
from antt_text import Told
from asking import bits, simulation_lines
from layout import Unused, changing_words, least_length, message_words, table_words
from reading import BatcherRow, Connector, Message, ProcessorRow, Simulation, Table

TABLE = Table([BatcherRow(1, None, 1, 2, 2, 10.0), ProcessorRow(2, None, 1, 2, 8)], [Connector(1, 2, 2, 1)], [])
LARGEST = 64 * 206 + 256 * 4 + 256 * 6 + 1542


def rows_of(messages):
    """Messages, one straight after the other."""
    return message_words(message._replace(time=bits(message.time)) for message in messages)


def state_of(simulation):
    """The words of the state in use."""
    return table_words(TABLE, Unused()) + changing_words(TABLE.rows, Told(simulation_lines(simulation)))


def laid(words, buffer):
    """Words at the start of a buffer; all beyond stays as it was."""
    return words + buffer[len(words):]


def show(name, words):
    """Every word that is not 0, with its place."""
    print(name + ''.join(f' {place}={word:x}' for place, word in enumerate(words) if word))


def report(ran):
    """What a run reports."""
    end = f'refused {ran.refusal}' if ran.end == 'Refused' else ran.end.lower()
    print(f'{ran.steps} steps, {len(ran.rows)} rows, {end}')


def begun(buffer, loud=True):
    """The simulation with its three jobs, and the buffer that it stands in."""
    simulation = Simulation([4.0, 5.0, 6.0])
    simulation.post(TABLE)
    for content in (11, 12, 13):
        simulation.inject_input(Message(0, 0, 1, 1, 0.0, content))
    if loud:
        print('done\n' * 4, end='')
    return simulation, laid(state_of(simulation), buffer)


def run_until(simulation, buffer, room):
    """step_until 10, its rows and the state after it."""
    ran = simulation.step_until(10.0, 1000)
    report(ran)
    show('  rows', laid(rows_of(ran.rows), [0] * room))
    show('  state', laid(state_of(simulation), buffer))


def main():
    """The steps one by one, then until 10, then the same by value."""
    simulation, buffer = begun([0] * least_length(TABLE))
    show('  state', buffer)
    for number in range(1, 12):
        ran = simulation.step()
        print(f'step {number}: ', end='')
        report(ran)
        show('  rows', laid(rows_of(ran.rows), [0] * 12))
        buffer = laid(state_of(simulation), buffer)
        show('  state', buffer)
    simulation, buffer = begun(buffer)
    print('until 10: ', end='')
    run_until(simulation, buffer, 18)
    simulation, buffer = begun([0] * LARGEST, loud=False)
    print('by value until 10: ', end='')
    run_until(simulation, buffer, 18)
    print('by value, a bad row: refused 2')
    show('  state', [0, 0, 0, 0, 0, 0])


if __name__ == '__main__':
    main()
