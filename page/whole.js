// The whole page drawn: the picture, the deck, the texts, a lesson and an exercise. `gestures`
// are the deck's, `taskGestures` those of the exercise.
import { putAnswers } from "./answers.js";
import { putUndo } from "./back.js";
import { processesHere, putDeck } from "./deck.js";
import { one } from "./elements.js";
import { preparePrint } from "./printing.js";
import { spent } from "./model.js";
import { isLessonAtStart, putLesson } from "./player.js";
import { followFocus, look, putPicture } from "./picture.js";
import { lookAtSecond, putSecond } from "./second.js";
import { now } from "./state.js";
import { goalLooks, putTask } from "./taskstrip.js";
import { putText } from "./text.js";

// for the tests: what was asked of the program since the page began
export const putSpent = () => Object.assign(one("#inner").dataset, spent);
export async function drawWhole(gestures, taskGestures, isFollowing = true) {
  await look(isFollowing);
  await lookAtSecond();
  putSpent();
  await now.model.look(goalLooks());
  putPicture(processesHere().filter((it) => it.isHit).map((it) => it.number));
  putSecond();
  putDeck(gestures);
  putAnswers(gestures);
  putText();
  putLesson();
  const isCovered = await putTask(taskGestures) || isLessonAtStart();
  document.body.classList.toggle("covered", isCovered);
  putUndo();
  followFocus();
  preparePrint();
}
