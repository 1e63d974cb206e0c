//! The same steps in plain safe Rust, with each row cut out of map and field first, which leaves fewer checks.

include!("parts.rs");

/// Collides one row, and pushes on the accounts.
fn collide_row(
    entries: &[u8; 256],
    source: &mut Register,
    acts: bool,
    map: &[u8],
    field: &[u8],
    spare: &mut [u8],
    accounts: &mut [[i64; 2]; 16],
) {
    for column in 0..map.len() {
        let twist = source.ask();
        let state = field[column];
        spare[column] = match map[column] {
            obstacle @ 1..=15 => {
                let push = momentum(state);
                let account = &mut accounts[obstacle as usize - 1];
                account[0] += 2 * push.0;
                account[1] += 2 * push.1;
                bounce(state)
            }
            16 => {
                let outcome = collide(entries, twist, state);
                if acts && outcome & 9 == 8 {
                    accounts[15][0] += 4;
                    outcome - 7
                } else {
                    outcome
                }
            }
            _ => collide(entries, twist, state),
        };
    }
}

/// So many steps from the first mark and an empty book; answers the mark.
pub fn steps(
    entries: &[u8; 256],
    width: usize,
    height: usize,
    period: u32,
    count: u32,
    map: &[u8],
    field: &mut [u8],
    spare: &mut [u8],
    accounts: &mut [[i64; 2]; 16],
) -> u32 {
    let mut source = Register { mark: 0xACE1 };
    *accounts = [[0; 2]; 16];
    for step in 0..count {
        let acts = period != 0 && step % period == 0;
        for row in 0..height {
            let cells = row * width..(row + 1) * width;
            collide_row(
                entries,
                &mut source,
                acts,
                &map[cells.clone()],
                &field[cells.clone()],
                &mut spare[cells],
                accounts,
            );
        }
        for row in 0..height {
            stream_row(spare, width, height, row, &mut field[row * width..(row + 1) * width]);
        }
    }
    source.mark
}
