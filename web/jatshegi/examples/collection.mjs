// A collection read as its bytes come: what the Laws say of each game, and which games can't be read. For a file: readGames(createReadStream(path)).
import { readGames } from 'jatshegi';

const FILE = `[White "Anna"]

1. f3 e5 2. g4 Qh4# 1-0

[White "Ben"]

1. e4 e5 2. Ke3 *

[White "Carl"]

1. Nf3 Nf6 2. Ng1 Ng8 3. Nf3 Nf6 4. Ng1 Ng8 *
`;
const stream = new Blob([FILE]).stream();
const onFault = (fault) => console.log(`game ${fault.index + 1}: ${fault.message}`);
for await (const game of readGames(stream, { onFault })) {
  const { status, winner, agrees, threefold } = game.report();
  console.log(`${game.getHeaders().White}: ${game.moves().length} plies, ${status}`, { winner, agrees, threefold });
}
//> Anna: 4 plies, mate { winner: 'b', agrees: false, threefold: null }
//> game 2: line 7, column 13: a word that names no legal move, or more than one
//> Carl: 8 plies, play { winner: null, agrees: true, threefold: 8 }
